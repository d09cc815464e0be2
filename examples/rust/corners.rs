// Tokens that are easy to cut wrongly. This is not a program.
crate extern loop move static unsafe async await
abstract become box do final gen macro override priv try typeof unsized virtual yield
_ __ _x x_ as_ selfish Selfish été Ωμέγα 變數 r#match r#x r r# rb br b

// lifetimes and labels, and characters
fn main() { let _x: &'static str = r#"a"b"#; }
for c in 'a'..='z' { été += c as u32; }
pub fn r#match<'a, T>(_: &'a [T]) -> Option<Self>;
'a 'a' 'ab 'a'b '_ '_' ' ' 'r#if 'é 'é' '\'' '"' '\\' '\0' '\x7F' '\u{1F600}' b'a' b'\'' b'\xff' b'é'

// the longest punctuator
a<<=b>>c&&d||!e?..=f=>g::h
a>>=b<-c->d<=e>=f!=g::<h>:::i .. ... .... ..= @ ~ $ # ? *= /= %= ^= &= |= <<

// numbers: 1..2 is 1, .. and 2, and t.0.1 is t, . and 0.1
0xFFu8 1_000i64 1.5e3 2f32 t.0.1 1..2 0b_1
0 00 0b12 0o18 0o 0x_ 0x_f 0xe+1 1e5 1e+ 1e+_5 1_e-1_f64 1. 1.abs() 1.0.0 1.5u8 1u8f 1_f32 1_000_usize 1e3i8

// strings: a raw string ends at a quote with as many hash signs as it began with
r"x\" r##"a"#b"## br"c" b"\xff\n" b'\'' '\u{1F600}' "q\"\u{e9}"
"" "\\" "//" "/* × */" "two \
lines" b"" b"\\\"" r"" r#""# r##""## br##"a"b"# c"## r#"""""# r##"#"#"## "π"π

// comments, those for documentation, and comments in comments
/* a /* b */ c */ /**/ /***/ /* // */ /* " */ /*/ */ /* /* */ /* */ */ /*! × */é=1;
//! inner
/// outer
//// plain
//
///

// what is not matched as one token: three levels of comments, and three hash signs
/* 1 /* 2 /* 3 */ */ */
r###"a"###
