#!/bin/sh
# How many cells the two largest parts of a guard have, and how long they take to append: a rail over 53 words of a code of
# distance 4, and a corrector of a word of 12 places within 3, which looks for 3,682 patterns of errors. A program of its own
# does it, in a copy of the crates that goes away. Needs the kit's command rt.
top=$(CDPATH='' cd -- "$(dirname -- "$0")/.." && pwd) && work=$(mktemp -d) || exit 1
trap 'rm -rf "$work"' EXIT
crates='netlist_spec guard_spec block_code distance gate_net cone_split predictor alarm_rails reduction corrector'
mkdir "$work/crates" && cp "$top/HANDLES" "$work" && cd "$work/crates" || exit 1
for crate in $crates; do
    mkdir "$crate" && (cd "$top/crates/$crate" && tar cf - --exclude=./out .) | (cd "$crate" && tar xf -) || exit 1
    grep -E "^$crate:" "$top/crates.txt" >>"$work/crates.txt"
done
echo 'parts_figures: netlist_spec guard_spec block_code distance gate_net cone_split alarm_rails corrector arrayvec' >>"$work/crates.txt"
mkdir -p parts_figures/src && cd parts_figures || exit 1
mkdir -p proofs/nets proofs/words proofs/far_code proofs/measure_corrector
cat >src/main.rt <<'END'
//! Figures of a rail and of a corrector.
#![tactic(auto)]

ghost use Rattle.std.specs.Prelude.{◌≡◌, ◌+◌, ◌*◌, ◌<◌, ◌≤◌, [], ◌∷◌, IfOk, length, map};
ghost use Rattle.std.specs.List.{AllByRecursion, flat_map, range_with_len};
ghost use Rattle.guard_spec.specs.Codes.{data_places};
ghost use Rattle.guard_spec.specs.Plain.{corrector_cost};
ghost use Rattle.block_code.specs.Shape.{code_of};
ghost use Rattle.gate_net.specs.Gate.{net_number};
ghost use Rattle.gate_net.specs.Words.{nets_of, word_nets};
ghost use Rattle.alarm_rails.specs.Rail.{FitsCode, rail_cells};

use alarm_rails::rail;
use arrayvec::ArrayVec;
use block_code::{Code, CodeFault};
use corrector::corrected;
use distance::{distance, patterns};
use gate_net::{GateNet, NetId, WordNets};
use std::alloc::{AllocError, Global};
use std::io;
use std::time::Instant;

// So many nets, one behind another.
fn nets<const CAP: usize>(first: u32, count: u32) -> ArrayVec<NetId, CAP>
    requires room { count ≤ CAP }
    requires few { first + count ≤ 424 }
    ensures nets { map net_number result.items ≡ range_with_len first count }
    ensures count { length result.items ≡ count }
{
    let mut nets = ArrayVec::new();
    for i in 0..count {
        nets.push(NetId(first + i));
    }
    nets
}

// The code of four rows and distance 4.
fn four_rows() -> Result<Code, CodeFault>
    ensures { IfOk result (λ c. c ≡ code_of 4 (14 ∷ 13 ∷ 11 ∷ 7 ∷ [])) }
{
    Code::new(4, 4, &[0b1110, 0b1101, 0b1011, 0b0111])
}

// 53 words of four places and four check places each.
fn words(alloc: Global, code: &Code) -> Result<Vec<WordNets>, AllocError>
    requires { code.now ≡ code_of 4 (14 ∷ 13 ∷ 11 ∷ 7 ∷ []) }
    ensures fit { IfOk result (λ ws. AllByRecursion (FitsCode code.now) (map word_nets ws.items)) }
    ensures nets { IfOk result (λ ws. AllByRecursion (λ n. n < 424) (flat_map nets_of (map word_nets ws.items))) }
    ensures room { IfOk result (λ ws. rail_cells code.now (map word_nets ws.items) ≤ 2000) }
{
    let mut words = Vec::new(alloc);
    for w in 0..53u32 {
        let places = nets(8 * w, 4);
        let checks = nets(8 * w + 4, 4);
        words.push(WordNets { places, checks })?;
    }
    Ok(words)
}

fn measure_rail(rt: &HostRuntime) -> io::Result<()> {
    let alloc = rt.alloc();
    let Ok(code) = four_rows() else {
        return Ok(());
    };
    let words = words(alloc, &code)?;
    let mut net = GateNet::new(alloc, 424)?;
    let start = Instant::now(rt)?;
    rail(&words, &code, &mut net)?;
    let time = start.elapsed(rt)?.as_micros();
    let cells = net.len().saturating_sub(424);
    println!(rt;
        "a rail over 53 words of four places and distance 4: {cells} cells, {time} microseconds"
    )
}

// The extended Golay code, with four of its columns twice: its distance is at least 8.
fn far_code() -> Result<Code, CodeFault>
    ensures places { IfOk result (λ c. data_places c ≡ 12) }
    ensures columns { IfOk result (λ c. c.columns ≡ 16) }
    ensures cost { IfOk result (λ c. corrector_cost c 3 12 ≤ 100000) }
{
    let rows = [
        0b1110_1111_1111_1110,
        0b0111_0100_0111_0111,
        0b1011_1010_0011_1011,
        0b1101_1101_0001_1101,
        0b1111_0110_1000_1111,
        0b0111_1011_0100_0111,
        0b0011_1101_1010_0011,
        0b0001_1110_1101_0001,
        0b1001_0111_0110_1001,
        0b0101_0011_1011_0101,
        0b1011_0001_1101_1011,
        0b1101_1000_1110_1101,
    ];
    Code::new(12, 16, &rows)
}

fn measure_corrector(rt: &HostRuntime) -> io::Result<()> {
    let alloc = rt.alloc();
    let Ok(code) = far_code() else {
        return Ok(());
    };
    let (d, _) = distance(&code);
    if d < 7 {
        return Ok(());
    }
    let places = nets(0, 12);
    let checks = nets(12, 16);
    let word = WordNets { places, checks };
    let found = patterns(alloc, &code, 12, 3)?;
    let mut net = GateNet::new(alloc, 28)?;
    let start = Instant::now(rt)?;
    corrected(alloc, &word, &code, 3, &found, &mut net)?;
    let time = start.elapsed(rt)?.as_micros();
    let count = found.len();
    let cells = net.len().saturating_sub(28);
    println!(rt;
        "a corrector of 12 places within 3, for {count} patterns: {cells} cells, {time} microseconds"
    )
}

fn main(rt: HostRuntime) -> io::Result<()> {
    measure_rail(&rt)?;
    measure_corrector(&rt)
}
END
cat >proofs/Lib.antt <<'END'
pub mod WordLemmas
END
cat >proofs/WordLemmas.antt <<'END'
-- Words of eight nets each, one behind another.
use Rattle.std.proofs.Common.{◌≡◌, refl, sym, subst, ℕ, zero, suc, ◌+◌, ◌*◌, ◌<◌, ◌≤◌, List, [], ◌∷◌, ◌++◌, arith, lit≤}
use Rattle.std.specs.Prelude.{length, sum_by}
use Rattle.std.specs.List.{AllByRecursion, flat_map, range_with_len}
use Rattle.std.proofs.lemmas.List.Concat.{flat_map-append}
use Rattle.std.proofs.lemmas.List.Sums.{sum_by-append}
use Rattle.netlist_spec.proofs.OneValue.{All_append}
use Rattle.guard_spec.specs.Codes.{Code}
use Rattle.guard_spec.specs.Plain.{ones}
use Rattle.block_code.specs.Shape.{code_of}
use Rattle.gate_net.specs.Words.{WordNets, nets_of}
use Rattle.alarm_rails.specs.Rail.{FitsCode, rail_cells}

-- the code of four rows
abbrev pub four : Code
four = code_of 4 (14 ∷ 13 ∷ 11 ∷ 7 ∷ [])

abbrev pub word_at : ℕ → WordNets
word_at n = record { places = range_with_len (8 * n) 4; checks = range_with_len (8 * n + 4) 4 }

pub record AreWords (code : Code) (ws : List WordNets) (n : ℕ) : Type 0 where
  pub fit : AllByRecursion (FitsCode code) ws
  pub nets : AllByRecursion (λ k. k < 424) (flat_map nets_of ws)
  pub cells : rail_cells code ws ≤ 1 + 20 * n

pub range_below : (a n limit : ℕ) → a + n ≤ limit → AllByRecursion (λ k. k < limit) (range_with_len a n)
range_below a zero limit h = tt
range_below a (suc n) limit h = (omega arith, range_below (a + 1) n limit (omega arith))

-- what a word costs in a rail
abbrev cost : WordNets → ℕ
cost w = ones four (length w.places) + 2 * four.columns

at_four : (ws : List WordNets) (n : ℕ) → n < 53 → AreWords four ws n → AreWords four (ws ++ word_at n ∷ []) (n + 1)
at_four ws n h are = record {
  fit = All_append (FitsCode four) ws (word_at n ∷ []) are.fit (record { places = lit≤ tt; checks = refl }, tt);
  nets = subst (AllByRecursion (λ k. k < 424)) (sym (flat_map-append nets_of ws (word_at n ∷ [])))
      (All_append (λ k. k < 424) (flat_map nets_of ws) (flat_map nets_of (word_at n ∷ [])) are.nets
      (All_append (λ k. k < 424) (nets_of (word_at n)) [] (All_append (λ k. k < 424) (word_at n).places (word_at n).checks (range_below (8 * n) 4 424 (omega arith)) (range_below (8 * n + 4) 4 424 (omega arith))) tt));
  cells = let all = sum_by-append cost ws (word_at n ∷ []) in let one : sum_by cost (word_at n ∷ []) ≡ 20 = refl in let before = are.cells in omega arith;
}

pub one_more : (code : Code) (ws : List WordNets) (n : ℕ) → code ≡ four → n < 53 → AreWords code ws n → AreWords code (ws ++ word_at n ∷ []) (n + 1)
one_more code ws n e h are =
    subst (λ (c : Code). AreWords c (ws ++ word_at n ∷ []) (n + 1)) (sym e) (at_four ws n h (subst (λ (c : Code). AreWords c ws n) e are))
END
cat >proofs/nets/Invariants.antt <<'END'
use Rattle.std.proofs.Common.{◌≡◌, map, length}
use Rattle.std.specs.List.{range_with_len}
use Rattle.gate_net.specs.Gate.{net_number}
use Rattle.parts_figures.proofs.nets.Given as goal

abbrev pub invariant-loop-i : goal.invariant-loop-i
invariant-loop-i g l = record {
  nets : map net_number l.nets.items ≡ range_with_len l.first l.i;
  count : length l.nets.items ≡ l.i;
}
END
cat >proofs/nets/Answers.antt <<'END'
use Rattle.std.proofs.Common.{◌∙◌, ap, ℕ, ◌+◌, List, [], ◌∷◌, ◌++◌, map}
use Rattle.std.proofs.lemmas.List.{map-append}
use Rattle.gate_net.specs.declared.gate.NetId.{NetId}
use Rattle.gate_net.specs.Gate.{net_number}
use Rattle.cone_split.proofs.AllCopied.{range_push}
use Rattle.parts_figures.proofs.nets.Goals as goal

pub loop-i-preserved : goal.loop-i-preserved
loop-i-preserved g c =
    let made : NetId = record { 0 = c.args.first + c.loop-i.i } in
    record {
      nets = ap (map net_number) c.push.ensures.items
          ∙ (map-append net_number c.loop-i.nets.items (made ∷ [])
          ∙ (ap (λ (ns : List ℕ). ns ++ (c.args.first + c.loop-i.i) ∷ []) c.loop-i.invariant.nets ∙ range_push c.args.first c.loop-i.i));
      count = c.push.ensures.len ∙ ap (λ (n : ℕ). n + 1) c.loop-i.invariant.count;
    }
END
cat >proofs/words/Invariants.antt <<'END'
use Rattle.std.proofs.Common.{map}
use Rattle.gate_net.specs.Words.{word_nets}
use Rattle.parts_figures.proofs.WordLemmas.{AreWords}
use Rattle.parts_figures.proofs.words.Given as goal

abbrev pub invariant-loop-w : goal.invariant-loop-w
invariant-loop-w l = AreWords l.code (map word_nets l.words.items) l.w
END
cat >proofs/words/Answers.antt <<'END'
use Rattle.std.proofs.Common.{◌≡◌, sym, ◌∙◌, ap, ap₂, subst, ℕ, ◌+◌, List, [], ◌∷◌, ◌++◌, map}
use Rattle.std.proofs.lemmas.List.{map-append}
use Rattle.gate_net.specs.declared.words.WordNets.{WordNets as MachineWord}
use Rattle.gate_net.specs.Words.{WordNets, word_nets}
use Rattle.parts_figures.proofs.WordLemmas.{AreWords, one_more, word_at}
use Rattle.parts_figures.proofs.words.Goals as goal

pub loop-w-preserved : goal.loop-w-preserved
loop-w-preserved c =
    let ws = map word_nets c.loop-w.words.items in
    let w = c.loop-w.w in
    let made : MachineWord = record { places = c.nets-places.result; checks = c.nets-checks.result } in
    let is_word : word_nets made ≡ word_at w = ap₂ (λ (p q : List ℕ). record { places = p; checks = q }) c.nets-places.ensures.nets c.nets-checks.ensures.nets in
    let all : map word_nets c.push.new.self.items ≡ ws ++ word_at w ∷ [] =
    ap (map word_nets) (c.in_ok-push.ensures.items) ∙ (map-append word_nets c.loop-w.words.items (made ∷ []) ∙ ap (λ (x : WordNets). ws ++ x ∷ []) is_word) in
    subst (λ (xs : List WordNets). AreWords c.args.code.now xs (w + 1)) (sym all) (one_more c.args.code.now ws w c.requires c.loop-w-test.true c.loop-w.invariant)
END
cat >proofs/far_code/Answers.antt <<'END'
use Rattle.std.proofs.Common.{◌≡◌, ◌≤◌, ◌∷◌, [], lit≤}
use Rattle.std.proofs.lemmas.Result.{IfOk-weaker}
use Rattle.block_code.specs.Shape.{code_of}
use Rattle.guard_spec.specs.Codes.{Code}
use Rattle.guard_spec.specs.Plain.{corrector_cost}
use Rattle.parts_figures.proofs.far_code.Goals as goal

pub returns-clause-cost : goal.returns-clause-cost
returns-clause-cost c =
    IfOk-weaker c.new.result (λ (code : Code). code ≡ code_of 16 (61438 ∷ 29815 ∷ 47675 ∷ 56605 ∷ 63119 ∷ 31559 ∷ 15779 ∷ 7889 ∷ 38761 ∷ 21429 ∷ 45531 ∷ 55533 ∷ [])) (λ (code : Code). corrector_cost code 3 12 ≤ 100000) (λ code e. rw e (lit≤ tt)) c.new.ensures.made
END
cat >proofs/measure_corrector/Answers.antt <<'END'
use Rattle.std.proofs.Common.{◌≡◌, sym, ◌∙◌, ap, subst, ℕ, ◌+◌, ◌≤◌, List, map, length, arith}
use Rattle.netlist_spec.specs.Gates.{GateList}
use Rattle.guard_spec.specs.Codes.{ArePatterns}
use Rattle.guard_spec.specs.Plain.{corrector_cost}
use Rattle.distance.specs.Patterns.{pattern_of}
use Rattle.distance.specs.declared.error_patterns.Pattern.{Pattern}
use Rattle.parts_figures.proofs.measure_corrector.Goals as goal

pub corrected-requires-clause-checks : goal.corrected-requires-clause-checks
corrected-requires-clause-checks c = c.nets-checks.ensures.count ∙ sym c.in-Ok.ensures.columns

pub corrected-requires-clause-patterns : goal.corrected-requires-clause-patterns
corrected-requires-clause-patterns c =
    let code = c.in-Ok.code in
    let r = code.columns in
    subst (λ (m : ℕ). ArePatterns code m 3 (map (pattern_of (m + r) r) c.deref.result.now)) (sym c.nets-places.ensures.count)
    (subst (λ (ps : List Pattern). ArePatterns code 12 3 (map (pattern_of (12 + r) r) ps)) (sym c.deref.ensures.value) c.in_ok-found.ensures.all)

pub corrected-requires-clause-room : goal.corrected-requires-clause-room
corrected-requires-clause-room c =
    let cost : corrector_cost c.in-Ok.code 3 (length c.nets-places.result.items) ≤ 100000 =
    subst (λ (m : ℕ). corrector_cost c.in-Ok.code 3 m ≤ 100000) (sym c.nets-places.ensures.count) c.in-Ok.ensures.cost in
    let leaves : c.in_ok-net.net.leaves ≡ 28 = ap (λ (g : GateList). g.leaves) c.in_ok-net.ensures in
    let gates : length c.in_ok-net.net.gates ≡ 0 = ap (λ (g : GateList). length g.gates) c.in_ok-net.ensures in
    omega arith
END
touch stdin
if rt run >report 2>&1; then
    grep '^a ' report
else
    cat report >&2
    exit 1
fi
