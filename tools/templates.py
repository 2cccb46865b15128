"""Templates of a crate and of a pass over stub code (./dev new)."""
import os
import re
import sys

TOP = os.path.dirname(os.path.dirname(os.path.abspath(__file__)))

# Of each template the line of crates.txt after the name, and its files.
CRATE = ("kit_base", {
    "README.md": """# NAME

TO WRITE: what this crate is, in a noun phrase, which `docs/ARCHITECTURE.md` shows; ten lines of use; 80 to 130 words in all.

## Only tested

TO WRITE: what no clause says.
""",
    "src/lib.rt": """//! TO WRITE: what this crate is for, in a noun phrase.
#![tactic(auto)]

mod values;

pub use values::value;
""",
    "src/values.rt": """//! Values of numbers.

ghost use Rattle.std.specs.Prelude.{◌≡◌};
ghost use Rattle.NAME.specs.Values.{value_of};

/// The value of a number.
pub fn value(n: u32) -> u32
    ensures value { result ≡ value_of n }
{
    n
}
""",
    "specs/Lib.antt": "pub mod Values\n",
    "specs/Values.antt": """-- Values of numbers.
use Rattle.std.specs.Prelude.{ℕ}

-- the value of a number
abbrev pub value_of : ℕ → ℕ
value_of n = n
""",
    "bugs": """[
 {
  "bug": "the value is always 0",
  "function": "NAME::values::value",
  "edits": [
   {
    "file": "src/values.rt",
    "old": "    n\\n}",
    "new": "    0\\n}"
   }
  ]
 }
]
"""})
PASS = ("kit_base mint wire_def cast_stub", {
    "README.md": """# NAME

TO WRITE: what the pass makes of stub code, in a noun phrase, which `docs/ARCHITECTURE.md` shows; ten lines of use. Its clauses
have names of `cast_stub`: `SendsTheSame`, `IsCoveredFor` (`docs/STUBS.md`, "To write a pass").

## Only tested

TO WRITE: what no clause says.
""",
    "src/lib.rt": """//! TO WRITE: what the pass makes of stub code, in a noun phrase.
#![tactic(auto)]

mod passing;

pub use passing::pass;
""",
    "src/passing.rt": """//! The pass.

ghost use Rattle.std.specs.Prelude.{◌≡◌, IfOk};
ghost use Rattle.cast_stub.specs.Block.{code_seen};
ghost use Rattle.NAME.specs.Passed.{passed};

use cast_stub::SendOps;
use cast_stub::copies::copy_ops;
use kit_base::NoMemory;
use std::alloc::Global;

/// The operations that the pass makes of operations.
pub fn pass(alloc: Global, ops: &SendOps) -> Result<SendOps, NoMemory>
    ensures value { IfOk result (λ os. code_seen os ≡ passed (code_seen ops.now)) }
{
    copy_ops(alloc, ops)
}
""",
    "specs/Lib.antt": "pub mod Passed\n",
    "specs/Passed.antt": """-- What the pass makes of a block.
use Rattle.cast_stub.specs.Block.{Block}

-- the block that the pass makes of a block
abbrev pub passed : Block → Block
passed b = b
""",
    "bugs": """[
 {
  "bug": "no operation is kept",
  "function": "NAME::passing::pass",
  "edits": [
   {
    "file": "src/passing.rt",
    "old": "    copy_ops(alloc, ops)",
    "new": "    let _ = copy_ops(alloc, ops)?;\\n    Ok(SendOps::new(alloc))"
   }
  ]
 }
]
"""})
NEXT = """next: what it stands on, and its place among the layers, in crates.txt; ./dev {name} checks it;
tests/print_docs --write prints it in docs/ARCHITECTURE.md and docs/PROOFS.md; docs/CONTRIBUTING.md has what is asked of {of}"""


def make(kind, name):
    """Makes a crate, and says what is next."""
    folder, (uses, files) = f"{TOP}/crates/{name}", CRATE if kind == "crate" else PASS
    if not re.fullmatch(r"[a-z][a-z0-9_]*", name) or os.path.exists(folder):
        print(f"{name} is no name of a new crate: small letters, digits and _, and no folder of crates/", file=sys.stderr)
        return 1
    for file, text in files.items():
        path = f"{TOP}/tests/bugs/{name}.json" if file == "bugs" else f"{folder}/{file}"
        os.makedirs(os.path.dirname(path), exist_ok=True)
        with open(path, "w", encoding="utf-8") as made:
            made.write(text.replace("NAME", name))
        print(os.path.relpath(path))
    with open(f"{TOP}/crates.txt", "a", encoding="utf-8") as lines:
        lines.write(f"\n# TO WRITE: what the crate is for.\n{name}: {uses}\n")
    print(NEXT.format(name=name, of="a pass" if kind == "pass" else "such an addition"))
    return 0
