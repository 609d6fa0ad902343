"""What CONTRACTS.md says before its first function: how to read the page, and what the toolchain's words mean."""

INTRODUCTION = """
# What each exported function promises

Written by tests/generate from the sources, and not to be edited. The tests compare this page with the sources, so a promise that is lost, weakened
or moved shows here.

How to read it:

- Under a function's name stand its comment and declaration, as include/bagnoszyk.h has them, and then its clauses, each after the word `ensures` and
  its own name, if it has one.
- A clause is a fact that holds of every call, whatever the arguments are. The checker has proved it. docs/TRUST.md says what that rests on.
- `result` is what the call returns. The other names of a clause are the parameters, and C's `bgz_vec2` is `Vec2` here.
- A lent list is one value, and its length belongs to it: C's `out_length` is `length out.old`. `x.now` is what a list holds that is only read.
  Of a list or a box that the call may change, `x.old` is what it holds before the call and `x.new` what it holds after it.
- `f x y` is what C writes as f(x, y), and `p.x` is a field. It binds before any sign: `f x ++ g y` is `(f x) ++ (g y)`. With fewer arguments than
  `f` takes, `f x` is the function of those that are left. `result ≡ f x y` says that the call returns exactly what the definition `f` gives.
- Below the clauses stand the definitions that they name, then those that these name, down to the words of the toolchain, which the table explains.
  Each definition stands once, where it is first needed, with those under the same comment; elsewhere a link leads to it.
- A definition has its name and its type: `min_of : Float → Float → Float` makes a float from two. The lines below say what it gives. If they are
  several, the first whose left side fits decides. `A : Type 0` is any type. What a type has in braces is an argument that is not written. `module _ x where` puts the argument
  x before those of each definition in it, wherever others name it.
- A definition whose type ends in `Type 0` or `Type 1` is a statement about its arguments. A `record .. : Type 0 where` with facts as fields holds
  exactly if every one of them does. A field that is a value, such as `answer : A`, says that there is such a value, of which the fields below it
  speak.
- `abbrev`, `unfoldable`, `unfolding ..` and `pub` tell the checker what it may look into. They change no meaning. `infixl 7` says how tightly a sign
  binds: `a ⊗ b ⊕ c` is `(a ⊗ b) ⊕ c`. A comment begins with `--` or `//`.
- `⊕ ⊖ ⊗ ⊘` are the sum, the difference, the product and the quotient of two floats, each rounded to the nearest f32. C's whole numbers are those of
  `ℕ`, or of `ℤ` if they have a sign; in definitions these are of any size, and nothing overflows.
"""

# Signs and words that go together, and their meaning. What is built into the language begins with `!` and is always told.
WORDS = (
    ("≡ ≢", "is the same as; is not. Of floats: the same number with the same sign, a zero's too. NaN is the same as NaN."),
    ("→", "!between facts: if the first holds, the second does. `(x : A) → P`: for every x of A, P. Between types: from one to the other."),
    ("×", "!and. `(x : A) × P`: there is an x of A with P."),
    ("⊎ ↔", "or; exactly if."),
    ("⊥ ¬", "!what never holds; not. `P → ⊥` says that P does not hold."),
    ("λ let", "!`λ x. e` is the function that gives e for x; `let x = a in e` is e, where x stands for a."),
    ("record", "!`record { x = a; y = b }` is the value with these fields."),
    ("Unit tt", "!the type that has one value, and that value. As a fact it always holds."),
    ("Bool true false not && \\|\\|", "a test's outcome, yes or no; not, and, or."),
    ("cond", "`cond t a b` is a if the test t is true, and else b."),
    ("T IsTrue", "the fact that a test is true."),
    ("ℕ ℤ", "the whole numbers from 0 on; all whole numbers."),
    ("zero suc pos negsuc", "0; `suc n` is n + 1; of ℤ, `pos n` is n and `negsuc n` is -(n + 1)."),
    ("+ - * / % ^ min max", "of ℕ. A difference that would be below 0 is 0. A quotient is rounded down, and `%` is what it leaves. `^` is a power."),
    ("< ≤ <ℤ ≤ℤ", "below; at most: facts of whole numbers."),
    ("eqb nat_eq ltb leb int_le", "equal, by either word; below; at most, of ℕ and of ℤ: tests."),
    ("neg_ℤ nat_abs -ℤ *ℤ shr_z", "of ℤ: negative, size, difference, product; `shr_z z d` is z / d, rounded down."),
    ("List [] ∷ ++", "a list; none; a first entry before a list; one list before another. `a ∷ b ∷ []` is the list of a and b."),
    ("length take drop", "how many entries; the first n of them; all but the first n."),
    ("get_or slice_index set replicate",
     "`get_or l i d` is entry i of l, from 0 on, or d past its end; "
     "`slice_index l i` is `get_or l i 0`; `set l i x` is l with x as entry i; `replicate n x` is n times x."),
    ("map filter", "what f gives for each entry; the entries that pass a test."),
    ("All Any Contains Memᴰ list_any",
     "each entry meets the fact; some entry does; `Contains l x` and `Memᴰ x l`: x is an entry of l; "
     "the test whether an entry passes a test."),
    ("pointwise", "`pointwise t l m` is the test whether l and m have as many entries, and t passes those of each place."),
    ("Decides", "`Decides t P`: the test t is true exactly if P holds."),
    ("position_from", "`position_from f n l` is `Some (n + i)` for the first entry i of l that passes the test f, and else `None`."),
    ("Option Some None", "`Some x`, or `None` where there is none."),
    ("Result Ok Err result_unwrap_or", "`Ok x` is an answer, `Err e` a refusal; `result_unwrap_or r d` is the answer, or d for a refusal."),
    ("Float nan inf fin", "a float: NaN, of which there is one; `inf s` is an infinity; `fin s m e` is m * 2 ^ e. `s` is true of what is negative."),
    ("binary32", "the format of an f32."),
    ("up down", "2 ^ e as the fraction up e / down e of whole numbers."),
    ("add sub mul div round",
     "IEEE 754's operations, rounded to the nearest value of the format, a tie to the even one; "
     "`round f s n d` is n / d with the sign s, so rounded."),
    ("of_int of_bits to_bits nan_bits",
     "a whole number as a float, rounded; the float of a bit pattern; the pattern of a float, for NaN 7fc00000; "
     "the test whether a pattern is one of NaN."),
    ("to_unsigned to_signed", "a float cut toward zero to a whole number and held to 0 .. 2 ^ w - 1, or to -2 ^ h .. 2 ^ h - 1; 0 for NaN."),
    ("lt le eq ne", "below; at most; equal; not equal: tests of floats. The two zeros are equal. With NaN only `ne` is true."),
    ("<ᶠ ≤ᶠ", "the facts that `lt` and `le` are true."),
    ("neg", "the float with its sign turned."),
    ("is_nan finite positive", "tests: it is NaN; neither NaN nor an infinity; finite and above zero."),
    ("fits", "the test whether the format has the float. Every f32 fits `binary32`."),
    ("size count_trailing_zeros odd",
     "the binary digits of a number, 0 for 0; the zeros at their end; "
     "`odd d s q k l` is the float q * 2 ^ k / 2 ^ l with the sign s, for a q of at most d digits."),
    ("String code", "a text; the number of a character."),
)
