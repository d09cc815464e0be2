/* Tokens that are easy to cut wrongly. This is not a program. */
auto extern goto long short signed typedef volatile
_Alignas _Alignof _Atomic _Bool _Complex _Imaginary _Thread_local
if iffy If _if if0 i\u0066 \U000000E9t\u00e9 sizeof(sizeofs)

// the longest punctuator
int main(void) { return 0; } // done
for(i=0;i<n;++i)a[i]->b+=c<<=2;
a+++b a---b a-->b a>>=b>>c>d a&&&b a|||b x%=y^=z|=w .. ... ....
#define CAT(a,b) a ## b %:%: #b
<: :> <% %> %: %:%: %:%:%: <::> <:::>

// constants: 08 is 0 and 8, 1..2 is 1. and .2, and 0x1p is 0x1 and p
unsigned long x = 0x1FuLL >> 3, y = 010, z = 1.5e-3f;
0 00 017 08 0u 1LLU 1lul 0xfEdC 0x 1e5 1e+ 1. .5 1..2 1.e5L 0x.8p0 0X1.P-1f 0x1.8 0x1p
'a' 'ab' '"' '\'' L'\x41' u'\u00e9' U'\377' u8'a' '\18'

// strings and comments in each other, and π and × in both
char *s = u8"a\n\"b\"" L"\x41", c = '\'';
"" "\\" "//" "/* × */" u"\U0001F600" U"\?" R"a" "π" 'π' /* "π */ "*/" /* ' */ ' '
iffy/*x**/-/* a /* b */.5+0x1.8p3L...
a/b/c a/ *b /**/ /***/ /****/ /* * / */ /*/ */ /* // */ //* */ /*
//
