//! Kinds, rules and codes: their numbers and names, and what each says. Each stands once, in a table here. include/bitblast.h and
//! docs/FORMAT.md have the same ones: tests/words.rs compares the three, and tests/format.rs the page with the library.
use std::{error::Error, fmt};

/// A number that no kind, rule or code has.
#[derive(Clone, Copy, Debug, PartialEq, Eq)]
pub struct Unknown(pub u32);

impl fmt::Display for Unknown {
    fn fmt(&self, f: &mut fmt::Formatter) -> fmt::Result {
        write!(f, "nothing has the number {}", self.0)
    }
}

impl Error for Unknown {}

/// An enum from a table of numbers, names and words. What it displays is its name or its words, as the first line says.
macro_rules! numbered {
    ($(#[$about:meta])* $type:ident as $number:ident, displays $shown:ident;
     $($value:literal $variant:ident $name:literal $words:literal)*) => {
        $(#[$about])*
        #[non_exhaustive]
        #[derive(Clone, Copy, Debug, PartialEq, Eq, Hash)]
        #[repr($number)]
        pub enum $type {
            $(#[doc = $words] $variant = $value,)*
        }

        impl $type {
            /// All, in the order of their numbers.
            pub const ALL: &'static [Self] = &[$(Self::$variant),*];

            /// Its number in a job or an answer.
            pub const fn number(self) -> $number {
                self as $number
            }

            /// Its name in docs/FORMAT.md; in capitals, behind a prefix, it is the name in include/bitblast.h.
            pub const fn name(self) -> &'static str {
                match self {
                    $(Self::$variant => $name,)*
                }
            }

            /// What it says.
            pub const fn words(self) -> &'static str {
                match self {
                    $(Self::$variant => $words,)*
                }
            }
        }

        impl TryFrom<$number> for $type {
            type Error = Unknown;

            fn try_from(number: $number) -> Result<Self, Unknown> {
                match number {
                    $($value => Ok(Self::$variant),)*
                    _ => Err(Unknown(number.into())),
                }
            }
        }

        impl fmt::Display for $type {
            fn fmt(&self, f: &mut fmt::Formatter) -> fmt::Result {
                f.pad(self.$shown())
            }
        }
    };
}

numbered! {
    /// The kinds of records. The words of a term's kind are its spelling in SMT-LIB, where it has one.
    Kind as u16, displays name;
    10 BoolVar "BoolVar" "a Bool variable"
    11 BvVar "BvVar" "a bit-vector variable"
    12 Constant "Constant" "a constant"
    20 Not "Not" "not"
    21 And "And" "and"
    22 Or "Or" "or"
    23 Xor "Xor" "xor"
    24 Equals "Equals" "="
    25 Ite "Ite" "ite"
    30 BvBitOf "BvBitOf" "@bit_of"
    31 BvBbTerm "BvBbTerm" "@bbterm"
    40 BvNot "BvNot" "bvnot"
    41 BvNeg "BvNeg" "bvneg"
    42 BvAnd "BvAnd" "bvand"
    43 BvOr "BvOr" "bvor"
    44 BvXor "BvXor" "bvxor"
    45 BvAdd "BvAdd" "bvadd"
    46 BvMul "BvMul" "bvmul"
    47 BvXNor "BvXNor" "bvxnor"
    48 BvComp "BvComp" "bvcomp"
    49 BvULt "BvULt" "bvult"
    50 BvSLt "BvSLt" "bvslt"
    51 BvShl "BvShl" "bvshl"
    52 BvLShr "BvLShr" "bvlshr"
    53 BvAShr "BvAShr" "bvashr"
    54 BvUDiv "BvUDiv" "bvudiv"
    55 BvURem "BvURem" "bvurem"
    56 BvConcat "BvConcat" "concat"
    57 BvExtract "BvExtract" "extract"
    58 SignExtend "SignExtend" "sign_extend"
    60 ZeroExtend "ZeroExtend" "zero_extend"
    61 RotateLeft "RotateLeft" "rotate_left"
    62 RotateRight "RotateRight" "rotate_right"
    63 Repeat "Repeat" "repeat"
    100 Step "Step" "a step"
    101 Back "Back" "a back"
    103 FourBytes "FourBytes" "term numbers of four bytes"
    104 Chain "Chain" "a chain"
}

numbered! {
    /// The rules, of steps and then of chains. The words say what stands on the left side, or what the premises come to.
    Rule as u16, displays name;
    1 Value "value" "Constant"
    2 Var "var" "any bit-vector"
    3 And "and" "BvAnd"
    4 Or "or" "BvOr"
    5 Xor "xor" "BvXor"
    6 XNor "xnor" "BvXNor"
    7 Not "not" "BvNot"
    8 ULt "ult" "BvULt"
    9 SLt "slt" "BvSLt"
    10 Add "add" "BvAdd"
    11 Mult "mult" "BvMul"
    12 Neg "neg" "BvNeg"
    13 Equality "equality" "Equals"
    14 Comp "comp" "BvComp"
    15 Extract "extract" "BvExtract"
    16 Concat "concat" "BvConcat"
    17 SignExtend "sign_extend" "SignExtend"
    18 Shl "shl" "BvShl"
    19 LShr "lshr" "BvLShr"
    20 AShr "ashr" "BvAShr"
    21 UDiv "udiv" "BvUDiv"
    22 URem "urem" "BvURem"
    23 BitwiseSlicing "bitwise_slicing" "BvAnd"
    24 UDivStandard "udiv_standard" "BvUDiv"
    25 URemStandard "urem_standard" "BvURem"
    26 AShrStandard "ashr_standard" "BvAShr"
    27 ZeroExtend "zero_extend" "ZeroExtend"
    28 RotateLeft "rotate_left" "RotateLeft"
    29 RotateRight "rotate_right" "RotateRight"
    30 Repeat "repeat" "Repeat"
    31 Symm "symm" "an equality turned round"
    32 Trans "trans" "equalities one after the other"
    33 Cong "cong" "equalities of arguments"
}

numbered! {
    /// The codes that stop a job, and 0 where none does.
    StopCode as u32, displays words;
    0 End "end" "the job ran to its end"
    2 TooLong "too_long" "the job is longer than 16,777,216 bytes"
    3 Cut "cut" "the record is cut: just one byte is left, or its length is below 2 or beyond the job's end"
    4 UnknownKind "unknown_kind" "the record's kind is unknown"
    5 WrongLength "wrong_length" "the record's length is not its kind's"
    6 NotKept "not_kept" "an argument or literal is not the number of a kept term"
    7 NotSorted "not_sorted" "a sort, width, index or value does not fit"
    8 NoRoom "no_room" "no room for a new term: the work memory or the term numbers are spent"
    9 NoRule "no_rule" "the record's kind has no such rule"
    18 WrongBack "wrong_back" "a back to below 2 or above the number of terms"
    19 NoAnswerRoom "no_answer_room" "fewer bytes are left than the step's answer has, 10 or 12"
}

numbered! {
    /// The codes of answers.
    AnswerCode as u16, displays words;
    0 Held "held" "held"
    1 FormOnly "form_only" "form only: the circuit is the rule's, which is not the standard's operation"
    10 NotOneLiteral "not_one_literal" "the clause has not exactly one literal"
    11 WrongForm "wrong_form" "the literal is not of the rule's form"
    12 NotBitVector "not_bit_vector" "the left side, or what it compares, is not a bit-vector"
    13 NotConstant "not_constant" "the left side is not a constant"
    14 BitNotLiteral "bit_not_literal" "a bit of the right side is neither true nor false"
    15 OtherValue "other_value" "the right side is another value"
    16 TermsDiffer "terms_differ" "the right side is not the expected term"
    17 IndexNotNext "index_not_next" "a slice does not begin just below the one before"
    24 PremiseBroken "premise_broken" "a premise is not an earlier step that is held and whose literal is kept since"
}

/// The names of so many rules, from a place of the table on.
const fn rule_names<const N: usize>(from: usize) -> [&'static str; N] {
    let mut names = [""; N];
    let mut k = 0;
    while k < N {
        names[k] = Rule::ALL[from + k].name();
        k += 1;
    }
    names
}

/// The rules of steps in the order of their numbers, from 1.
pub const RULES: [&str; Rule::Symm as usize - 1] = rule_names(0);

/// The rules of chains; their numbers follow those of steps.
pub const CHAIN_RULES: [&str; Rule::ALL.len() - RULES.len()] = rule_names(RULES.len());

/// How many of the rules, the first ones, are those of the original.
pub const ORIGINAL_RULES: usize = Rule::BitwiseSlicing as usize;

/// The codes that stop a job.
pub const STOPS: [(u32, &str); StopCode::ALL.len()] = {
    let mut stops = [(0, ""); StopCode::ALL.len()];
    let mut k = 0;
    while k < stops.len() {
        stops[k] = (StopCode::ALL[k].number(), StopCode::ALL[k].words());
        k += 1;
    }
    stops
};

/// The codes of answers.
pub const ANSWERS: [(u16, &str); AnswerCode::ALL.len()] = {
    let mut answers = [(0, ""); AnswerCode::ALL.len()];
    let mut k = 0;
    while k < answers.len() {
        answers[k] = (AnswerCode::ALL[k].number(), AnswerCode::ALL[k].words());
        k += 1;
    }
    answers
};

/// The codes of sweeps.
pub const SWEEPS: [(u32, &str); 3] = [
    (0, "every assignment was evaluated"),
    (20, "the job stops early, the number is not that of an Equals, or its variables have more than 16 bits"),
    (21, "the value buffer has fewer than 8 bytes for each kept term"),
];

/// The codes of counts.
pub const COUNTS: [(u32, &str); 4] = [
    (0, "every assignment was counted"),
    (
        20,
        "the job stops early, the number is not that of a Bool or of a bit-vector of width up to 8, or its variables have more than 16 bits",
    ),
    (21, "the value buffer has fewer than 8 bytes for each kept term"),
    (22, "there is no room for the counts of all values"),
];

/// The codes of derived bits.
pub const KNOWN: [(u32, &str); 4] = [
    (0, "the bits were derived"),
    (20, "the job stops early, or the number is not that of a kept term"),
    (21, "the value buffer has fewer than 8 bytes for each kept term"),
    (
        23,
        "the term holds more than variables, constants, gates over Bools, BvBitOf and BvBbTerm, the inputs are not 0, 1 or not known for each bit of its variables, or there is no room for its bits",
    ),
];

/// All rules with their numbers.
pub fn rules() -> impl Iterator<Item = (u16, &'static str)> {
    Rule::ALL.iter().map(|rule| (rule.number(), rule.name()))
}

/// The rule's name, `unknown` where there is no such rule.
pub fn rule_name(rule: u16) -> &'static str {
    Rule::try_from(rule).map_or("unknown", Rule::name)
}

/// A stop code in words.
pub fn stop_meaning(code: u32) -> &'static str {
    StopCode::try_from(code).map_or("unknown code", StopCode::words)
}

/// An answer's code in words.
pub fn answer_meaning(code: u16) -> &'static str {
    AnswerCode::try_from(code).map_or("unknown code", AnswerCode::words)
}

/// A sweep's code in words.
pub fn sweep_meaning(code: u32) -> &'static str {
    SWEEPS.iter().find(|(c, _)| *c == code).map_or("unknown code", |(_, words)| words)
}

/// A count's code in words.
pub fn count_meaning(code: u32) -> &'static str {
    COUNTS.iter().find(|(c, _)| *c == code).map_or("unknown code", |(_, words)| words)
}

/// The code of derived bits in words.
pub fn known_meaning(code: u32) -> &'static str {
    KNOWN.iter().find(|(c, _)| *c == code).map_or("unknown code", |(_, words)| words)
}
