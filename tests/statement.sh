#!/bin/bash
# Tests of tools/statement.py and tools/headline.py, over a small repository: what a clause unfolds to, and when the page is out of date.
# The last line is 'N passed, M failed'.
. "$(dirname -- "$0")/head.sh"

mkdir -p "$all"/{docs,crates/{low,high}/{src,specs}}
printf 'low:\nhigh may_wait=1: low clap\n' >"$all/crates.txt"
cat >"$all/crates/low/specs/Sizes.antt" <<'ANTT'
-- Sizes.
use Rattle.std.specs.Prelude.{ℕ, List, [], ◌∷◌, ◌≤◌}
use Rattle.low.specs.declared.shapes.Shape.{Shape}
use Rattle.low.specs.declared.shapes.Shape.TheVariants.{Round, Edged as WithEdges}

-- ---- sizes

-- the largest size
abbrev pub limit : ℕ
limit = 9

-- the size of a shape
abbrev pub size_of : Shape → ℕ
size_of Round = 1
size_of (WithEdges edges) = sum edges

-- the sum of some numbers
abbrev pub sum : List ℕ → ℕ
sum [] = 0
sum (other ∷ xs) = other + sum xs

-- a shape whose size is within the limit. `other` is a name of its own here
pub record IsSmall (s : Shape) : Type 0 where
  pub other : ℕ
  -- which is added
  pub within : size_of s + other ≤ limit

-- nothing that a clause names
abbrev pub other : ℕ
other = 1
ANTT
cat >"$all/crates/high/specs/Sizes.antt" <<'ANTT'
-- Sizes of what is high.
use Rattle.std.specs.Prelude.{ℕ, List}
use Rattle.std.specs.FinMap as fin
use Rattle.low.specs.Sizes as low
use Rattle.low.specs.Sizes.{other as most}
use Rattle.high.specs.declared.bags.TheConstants.{MOST}

-- another limit
abbrev pub limit : ℕ
limit = low.limit

-- what is in a bag
pub record BagFace : Type 0 where
  pub shapes : fin.FinMap ℕ

module _ (limit : ℕ) where
  -- it is below a limit that is given
  abbrev pub IsBelow : ℕ → Type 0
  IsBelow n = n + limit ≤ most

mutual
  -- it is even
  pub data IsEven : ℕ → Type 0 where
    is_none : IsEven 0
    is_more : (n : ℕ) → IsOdd n → IsEven (n + limit)

  -- it is odd
  pub data IsOdd : ℕ → Type 0 where
    after_even : (limit : ℕ) → IsEven limit → IsOdd MOST
ANTT
cat >"$all/crates/low/src/shapes.rt" <<'RUST'
//! Shapes.

/// A shape.
#[derive(Drop)]
pub enum Shape {
    Round,
    /// With a number for each edge.
    Edged(Vec<u64>),
}

/// Gives numbers.
pub trait Giver {
    // the numbers that are left
    ghost left: { Self → List ℕ };

    /// Gives one.
    fn give(&mut self) -> u64
        ensures gives { left self.new ≡ [] };
}
RUST
printf 'mod shapes;\n\npub use shapes::{Giver, Shape};\n' >"$all/crates/low/src/lib.rt"
printf 'mod bags;\n' >"$all/crates/high/src/lib.rt"
cat >"$all/crates/high/src/bags.rt" <<'RUST'
//! Bags.
ghost use Rattle.std.specs.Prelude.{◌≡◌, ℕ};
ghost use Rattle.low.specs.Sizes.{IsSmall};
ghost use Rattle.high.specs.Sizes.{IsEven};

use low::{Giver, Shape};
use std::marker::Model;

/// The most shapes in a bag.
pub const MOST: u64 = 7;

/// A bag of shapes.
#[derive(Drop)]
pub struct Bag {
    shapes: Vec<Shape>,
}

impl Model for Bag {
    ghost use Rattle.high.specs.Sizes.{BagFace};

    ghost Value = { BagFace };

    ghost view = { λ b. b.shapes };
}

impl Bag {
    /// Puts a shape in.
    pub fn put<G: Giver>(
        &mut self,
        giver: &G,
        shape: Shape,
    ) -> u64
        requires small { IsSmall shape }
        // It tells how many.
        ensures value { result ≡ 7 → G.left giver.now ≡ [] }
        ensures even { IsEven result }
    {
        7
    }

    /// Takes all out.
    pub fn empty(&mut self)
        ensures none { self.new ≡ self.old }
    {
    }
}

/// A law.
pub fn seven_is_even()
    ensures even { IsEven 7 }
{}

/// Another one.
pub fn round_is_small(shape: &Shape)
    ensures small { IsSmall shape.now }
{}
RUST

statement() {
    said=$(python3 "$here/tools/statement.py" --top "$all" "$@" 2>&1)
    status=$?
}

# Whether the last call ended with this status and said this.
says() {
    if [ "$status" = "$2" ] && [ "$said" = "$3" ]; then
        passed=$((passed + 1))
    else
        failed=$((failed + 1))
        printf 'FAILED: %s: status %s\n%s\n' "$1" "$status" "$(diff <(cat <<<"$said") <(cat <<<"$3"))"
    fi
}

# Whether these are the definitions, in this order.
shows() {
    said=$(sed -nE 's/^ *(abbrev pub|pub (record|data|enum|struct|trait|const)) ([A-Za-z_]+).*/\3/p' <<<"$said" | tr '\n' ' ')
    says "$1" 0 "$2 "
}

statement high::Bag::put value
says 'a clause, with its premises and all that they unfold to' 0 'high::Bag::put, value

pub fn put<G: Giver>(
    &mut self,
    giver: &G,
    shape: Shape,
) -> u64
    requires small { IsSmall shape }
    // It tells how many.
    ensures value { result ≡ 7 → G.left giver.now ≡ [] }

---- It unfolds to

---- crates/low/specs/Sizes.antt

-- a shape whose size is within the limit. `other` is a name of its own here
pub record IsSmall (s : Shape) : Type 0 where
  pub other : ℕ
  -- which is added
  pub within : size_of s + other ≤ limit

-- the size of a shape
abbrev pub size_of : Shape → ℕ
size_of Round = 1
size_of (WithEdges edges) = sum edges

-- the sum of some numbers
abbrev pub sum : List ℕ → ℕ
sum [] = 0
sum (other ∷ xs) = other + sum xs

-- the largest size
abbrev pub limit : ℕ
limit = 9

---- crates/low/src/shapes.rt

/// Gives numbers.
pub trait Giver
    // the numbers that are left
    ghost left: { Self → List ℕ };

/// A shape.
pub enum Shape {
    Round,
    /// With a number for each edge.
    Edged(Vec<u64>),
}

---- Names of the kit

std.specs.Prelude: List

6 definitions, 17 lines (in specs/: 4 definitions, 11 lines)'

statement --of high.Sizes.IsEven
shows 'names are those of the imports: limit is one of the definitions here, or another, or a variable' 'IsEven IsOdd MOST limit limit'
statement --of high.Sizes.IsBelow
shows 'a name that was imported as another; a variable of a module' 'IsBelow other'
statement high::Bag::empty none
shows 'a struct is what contracts see of it' 'Bag BagFace'
has_value=$(python3 "$here/tools/statement.py" --top "$all" high::Bag::empty none | grep -c 'ghost Value = { BagFace };')
said=$has_value
says 'which is shown' 0 1
statement high::round_is_small small
shows 'a law after a law' 'IsSmall size_of sum limit Shape'
statement --count high::Bag::put value high::Bag::put even
says 'two clauses: what was shown isn'\''t counted again' 0 'high::Bag::put, value: 6 definitions, 17 lines (in specs/: 4 definitions, 11 lines)
high::Bag::put, even: 4 definitions, 8 lines (in specs/: 3 definitions, 7 lines)
in all 10 definitions, 25 lines (in specs/: 7 definitions, 18 lines)'
statement high::Bag::put value high::Bag::put even
said=$(sed -n '/^---- Shown above/,/^---- N/p' <<<"$said" | sed -n 3p)
says 'and is named' 0 'IsSmall Shape limit'
statement --markdown high::Bag::empty none
said=$(grep -c '^```' <<<"$said")
says 'as Markdown' 0 6
statement high::Bag::take value
says 'a call that is gone' 2 'statement: there is no function high::Bag::take'
statement high::Bag::put values
says 'a clause that is gone' 2 'statement: high::Bag::put has no clause values; it has value, even'
statement --of high.Sizes.IsOld
says 'a definition that is gone' 2 'statement: there is no definition high.Sizes.IsOld'
statement high::Bag::put
says 'no clause' 2 'statement: the arguments are pairs of a call and a clause'

headline() {
    said=$(python3 "$here/tools/headline.py" "$@" "$all" 2>&1)
    status=$?
}

# Whether the page has this many lines that match.
has() {
    found=$(grep -c -- "$2" "$all/docs/HEADLINE.md")
    said=$found status=0
    says "$1" 0 "$3"
}

stale="docs/HEADLINE.md: high::Bag::put, even isn't what the sources say: python3 tools/headline.py
2 statements, 1 faults"
printf '# Claims\n\nIn words.\n\n<!-- statement: high::Bag::put value -->\n<!-- end of statement -->\n\nMore words.\n\n<!-- statement: high::Bag::put even -->\n<!-- end of statement -->\n' \
    >"$all/docs/HEADLINE.md"
headline --check
says 'a page without its statements' 1 "docs/HEADLINE.md: high::Bag::put, value isn't what the sources say: python3 tools/headline.py
${stale/1 faults/2 faults}"
headline
says 'it is written' 0 '2 statements, 0 faults'
headline --check
says 'and is then what the sources say' 0 '2 statements, 0 faults'
has 'its words stay' 'words\.' 2
has 'each definition is there once' '^limit = ' 2
sed -i 's/^limit = low.limit/limit = 8/' "$all/crates/high/specs/Sizes.antt"
headline --check
says 'after a change of a definition' 1 "$stale"
sed -i 's/ensures even/ensures evens/' "$all/crates/high/src/bags.rt"
headline
says 'after a clause is gone' 1 'docs/HEADLINE.md: high::Bag::put has no clause even; it has value, evens
2 statements, 1 faults'
has 'then nothing is written' '^limit = low.limit' 1
sed -i 's/ensures evens/ensures even/' "$all/crates/high/src/bags.rt"
headline
headline --check
says 'written again' 0 '2 statements, 0 faults'
printf '# High\n\n## What is proved\n\nIts `put` (`high::Bag::put`, `value`; `docs/HEADLINE.md`).\n\n    ensures even { IsEven self.now }\n\n## Else\n\n`shake`.\n' >"$all/README.md"
headline --check
says 'README names what the page has' 0 '2 statements, 0 faults'
sed -i 's/`value`;/`value`, `worth`;/' "$all/README.md"
headline --check
says 'README names what the page has not' 1 "docs/HEADLINE.md: README's worth isn't explained
2 statements, 1 faults"
rm "$all/README.md"
sed -i 's/^<!-- end of statement -->/<!-- end -->/' "$all/docs/HEADLINE.md"
headline --check
says 'a place without an end' 1 'docs/HEADLINE.md: a statement has no place between its two lines
0 statements, 1 faults'

finish
