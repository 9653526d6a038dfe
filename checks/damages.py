"""Damages to contracts that checks/exactness.py has to find, and to imports that checks/interfaces.py has to find, each planted into the
texts in memory: `checks/inventory --self-test`.

A row says what is damaged, the lines of checks/exact.txt that must fail then, by the crate and the call, the file, the text, and the text in
its place. A row of imports has what must be said then in the place of the lines."""

import contextlib
import sys

sys.dont_write_bytecode = True
import contracts
import definitions
import exactness
import interfaces

DAMAGES = [
    (
        "an equivalence on errors says one direction",
        "ring_exec run",
        "crates/ring_exec/src/message_run.rt",
        "↔ (¬ IsSegmentCount segments (length ring",
        "→ (¬ IsSegmentCount segments (length ring",
    ),
    (
        "the case of an error lacks its condition",
        "shared_memo install",
        "crates/shared_memo/src/memo.rt",
        "(λ back. (block.entry.value.plan ≢ memo_plan self.now) × (back.value",
        "(λ back. (back.value",
    ),
    (
        "the condition of an error has a case that is always true",
        "table_formula refute",
        "crates/table_formula/src/refutation.rt",
        "IfErr result (IsFault formula.now text.now)",
        "IfErr result (λ f. IsFault formula.now text.now f ⊎ (f ≡ f))",
    ),
    (
        "an equivalence in a definition that a clause cites says one direction",
        "table_text write_table",
        "crates/devices/specs/Output.antt",
        "pub failed_is : IsErrOf result Write ↔ IsTrue failed",
        "pub failed_is : IsErrOf result Write → IsTrue failed",
    ),
    (
        "a definition by cases lacks a variant",
        "table_formula Formula::new",
        "crates/table_formula/specs/FormulaFaults.antt",
        "IsFormulaFault p OutOfMemory = IsWithinLimits p\n",
        "",
    ),
    (
        "a match on the result lacks the error",
        "shared_memo look",
        "crates/shared_memo/specs/Known.antt",
        "IsLook IsRight was is seen (Err stranger) = (was ≡ None) × (is ≡ None) × IsSomeAnd seen (λ b. ¬ IsRight b)\n",
        "",
    ),
    (
        "one condition of two opposite ones is not negated",
        "table_formula Formula::new",
        "crates/table_formula/specs/FormulaFaults.antt",
        "IsFormulaFault p TooManyVariables = ¬ HasFewVariables p",
        "IsFormulaFault p TooManyVariables = HasFewVariables p",
    ),
    (
        "an exact value is a bound",
        "channel_tables channel_at",
        "crates/channel_tables/src/table.rt",
        "result ≡ channel_of self.now list.now",
        "result ≤ channel_of self.now list.now",
    ),
    (
        "an exact value is said of one variant alone",
        "channel_tables channel_at",
        "crates/channel_tables/src/table.rt",
        "result ≡ channel_of self.now list.now",
        "IfSome result (λ channel. channel_of self.now list.now ≡ Some channel)",
    ),
    (
        "a clause has another name",
        "lang_check accept",
        "crates/lang_check/src/acceptance.rt",
        "ensures exact {",
        "ensures accepted {",
    ),
    (
        "one of a pair says nothing of errors",
        "table_text read_table",
        "crates/table_text/src/reading.rt",
        "→ MatchResult result (λ read. (read.0 ≡ t) × (read.1 ≡ s)) (λ fault. fault ≡ TableFault.OutOfMemory) }",
        "→ IfOk result (λ read. (read.0 ≡ t) × (read.1 ≡ s)) }",
    ),
    (
        "an equivalence of two conditions that are one",
        "table_fill compile",
        "crates/shared_memo/specs/Workers.antt",
        "  pub some : 1 ≤ workers\n  pub few : workers ≤ MAX_THREADS\n",
        "  pub some : workers ≤ workers\n",
    ),
    (
        "a law's equivalence has one side twice",
        "channel_tables tuples_suffice",
        "crates/channel_tables/specs/Laws.antt",
        "IsApart t s ↔ IsApartEverywhere t s",
        "IsApart t s ↔ IsApart t s",
    ),
    (
        "a law that leads back leads elsewhere",
        "node_lang reading_is_exact",
        "crates/node_lang/specs/Laws.antt",
        "≡ Got p nodes left → Reads text p",
        "≡ Got p nodes left → length text ≤ LONGEST_TEXT",
    ),
    (
        "only one of two values that are read is unique",
        "table_formula formula_text_is_read",
        "crates/table_formula/specs/Laws.antt",
        "ReadsAs text n b → (m ≡ n) × (a ≡ b)",
        "ReadsAs text n b → m ≡ n",
    ),
    (
        "of a pair the one on errors says nothing",
        "nbhd_check judge",
        "crates/nbhd_check/src/verdict.rt",
        "OnErr result (¬ IsApartEverywhere table.now separation)",
        "OnErr result ⊤",
    ),
]

IMPORTS = [
    (
        "a proof imports another file than the interface",
        "crates/nbhd_check/proofs/BucketSteps.antt cites crates/win_index/proofs/Numbers",
        "crates/nbhd_check/proofs/BucketSteps.antt",
        "use Rattle.win_index.proofs.Windows.{",
        "use Rattle.win_index.proofs.Numbers.{",
    ),
    (
        "a proof imports the answers of another crate's call",
        "crates/nbhd_check/proofs/BucketSteps.antt cites crates/win_index/proofs/arrangement",
        "crates/nbhd_check/proofs/BucketSteps.antt",
        "use Rattle.win_index.proofs.Windows.{",
        "use Rattle.win_index.proofs.arrangement.Arrangements.bucket_start.Answers.{",
    ),
    (
        "a function's tactic names a lemma of another file than the interface",
        "crates/round_eval/src/row.rt cites crates/win_index/proofs/Numbers",
        "crates/round_eval/src/row.rt",
        "using(std::proofs::lemmas::Nat::row_fits)",
        "using(win_index::proofs::Numbers::windows_more)",
    ),
    (
        "a crate makes two files public",
        "crates/nbhd_check/proofs/BucketSteps.antt cites crates/win_index/proofs/Windows",
        "crates/win_index/proofs/Lib.antt",
        "mod Numbers\n",
        "pub mod Numbers\n",
    ),
    (
        "no other crate cites a lemma of an interface",
        "crates/win_index/proofs/Windows.antt: windows_less is not cited",
        "crates/win_index/proofs/Windows.antt",
        "pub windows_more :",
        "pub windows_less :",
    ),
    (
        "a lemma of an interface has no comment",
        "crates/win_index/proofs/Windows.antt: windows_more has no comment",
        "crates/win_index/proofs/Windows.antt",
        "-- for each window there are m-k with one identifier more\n",
        "",
    ),
]


@contextlib.contextmanager
def planted(path, old, new):
    """The texts with another text in place of one."""
    whole = contracts.ROOT / path
    contracts.CHANGED[whole] = contracts.read(whole).replace(old, new)
    forget()
    yield
    del contracts.CHANGED[whole]
    forget()


def forget():
    """Forgets what was read of the texts."""
    contracts.forget()
    definitions.forget()


def test_contracts(checks, lines):
    """Plants each damage, and checks that a line of its call fails then, and passed before."""
    for what, call, path, old, new in DAMAGES:
        its = [line for line in lines if f"{line.crate} {line.call}" == call]
        good = its and all(exactness.why_not(line) is None for line in its)
        stands = old in contracts.read(contracts.ROOT / path)
        checks.check(good and stands, f"checks/damages.py: {path} has not the text, or {call} fails without a damage: {what}")
        with planted(path, old, new):
            checks.check(any(map(exactness.why_not, its)), f"checks/damages.py: not found in {path}: {what}")


def test_imports(checks):
    """Plants each damage of imports, and checks that it is said then, and not before."""
    before = [*interfaces.faults()]
    for what, said, path, old, new in IMPORTS:
        stands = old in contracts.read(contracts.ROOT / path) and not any(fault.startswith(said) for fault in before)
        checks.check(stands, f"checks/damages.py: {path} has not the text, or is found without a damage: {what}")
        with planted(path, old, new):
            checks.check(any(fault.startswith(said) for fault in interfaces.faults()), f"checks/damages.py: not found in {path}: {what}")
