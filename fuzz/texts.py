"""Mutated C texts: pieces of the examples and of small programs, put together and damaged at random."""
import functools
import re
from pathlib import Path

TOP = Path(__file__).resolve().parent.parent

PIECE = re.compile(
    rb"/\*.*?\*/|[ \t]+|\n|[A-Za-z_]\w*|\.?\d[\w.]*|\"(?:\\.|[^\"\\\n])*\"|'(?:\\.|[^'\\\n])*'"
    rb"|<<=|>>=|->|\+\+|--|<<|>>|<=|>=|==|!=|&&|\|\||[*/%+\-&^|]=|.", re.S)

# small programs that together use each form of the language
SMALL = [
    b"int main(void){return 0;}",
    b"int main(void){int x=0;while(x<2)x=x+1;return x;}",
    b"int main(void){int i=0;while(1){i++;if(i==2)break;}return i;}",
    b"struct s{int f;int g;};int main(void){struct s v,*p;p=&v;v.f=1;p->g=2;p->f=3;return v.f+v.g;}",
    b"int main(void){int x,y;int*p;x=1;p=&x;*p=2;y=x;return y;}",
    b"int f(int n){if(n<2)return 1;return n*f(n-1);}int main(void){return f(3);}",
    b"int main(void){int x=0;switch(getchar()){case 'a':x=1;case 'b':x=x+2;break;default:x=9;}return x;}",
    b"#define TWO x + x\n#define A A\nint main(void){int x=1;int A=2;return TWO+A;}",
    b"enum e{P,Q=5,R};const char*s=\"ab\" \"c\";int main(void){enum e v=Q;char t[]=\"xy\";return v?s[1]:t[0];}",
    b"static unsigned long g[3]={1,2u,3L};int main(void){short i;for(i=0;i<3;++i){g[i]<<=1;continue;}exit(g[2]);return 0;}",
    b"int h(int a[],int n){int s=0;do{s+=a[--n];}while(n>0);return s;}int main(void){int b[2][2]={{1,2},{3,4}};return h(b[1],2);}",
    b"#include <stdio.h>\nint main(){int c,n=0;while((c=getchar())!=EOF)if(c=='\\n')n++;putchar('0'+n);return 0;}",
    b"struct n{struct n*next;int v;};struct n a,b;int main(void){a.next=&b;b.next=0;a.next->v=7;return(*a.next).v==7&&!b.next||~a.v,1;}",
    b"void p(int c){putchar(c);}int main(void){int i;p('a');(void)sizeof(int[3]);i=(char)300;return i>0?sizeof i:-1;}",
    b"long d(int*a,int*b){return b-a;}int main(void){int a[4];int*p=a+1;p+=2;return d(a,p)<4?*p--==3:1%2;}",
    b"int main(void){int i,j=0;for(i=0;i<4;i++)switch(i&3){case 0:{case 1:j++;}break;case 2:;}return j;}",
]

# texts that stand alone between other pieces
STATEMENTS = [
    b";", b"{}", b"break;", b"continue;", b"return 0;", b"return;", b"x=x+1;", b"int x=1;", b"int*p=&x;", b"*p=3;", b"if(x)x=2;else x=3;",
    b"while(x<3)x++;", b"do x--;while(x>0);", b"for(;;)break;", b"switch(x){case 1:;default:x=1;}", b"putchar(x);", b"x=getchar();",
    b"exit(x);", b"x=1/0;", b"a[x]=x;", b"p->f=1;", b"v.f=v.g;", b"\n#define M 1\n", b"\n#undef M\n", b"\n#include <stdio.h>\n",
    b"__atac_block(1):;", b"__atac_use(1,x);", b"__atac_test(1,x);", b"__atac_def(1,x)=1;", b"switch(__atac_select(1,1;x)){case 1:;}", b"x=__atac_block(2,x);",
]

WORDS = b"""break case char const continue default do else enum for if int long return short signed sizeof static struct switch
unsigned void while auto double extern float goto register typedef union volatile main getchar putchar exit EOF NULL x y p a v f""".split()

TYPES = b"char short int long signed unsigned void const int int int".split()

NUMBERS = [b"0", b"1", b"2", b"-1", b"3", b"7", b"255", b"0x7f", b"010", b"127", b"128", b"2147483647", b"2147483648", b"4294967295",
           b"9223372036854775807", b"18446744073709551615", b"18446744073709551616", b"1L", b"1u", b"1UL", b"08", b"0x", b"1.5", b"1048576",
           b"1048577", b"16383", b"16384", b"'a'", b"'\\n'", b"'\\0'", b"'\\377'", b"'\\400'", b"'ab'", b"\"s\"", b"\"\""]

# marks that may stand in each other's place, and the others
ALIKE = [row.split() for row in (b"+ - * / % << >> < > <= >= == != & ^ | && || ,", b"= += -= *= /= %= <<= >>= &= ^= |=", b"++ --", b"- ! ~ + * &", b". ->")]
MARKS = b"[ ] ( ) { } ? : ; , # @ ` \\ $".split() + [mark for row in ALIKE for mark in row]

DECLARATIONS = [b"int x;", b"int x=2;", b"char a[3];", b"int a[2][3]={{1},{2,3}};", b"struct s{int f;char*g[2];}v;", b"struct s*p;", b"enum{A,B=7,C};",
                b"const char s[]=\"ab\";", b"int f(int n,char*s);", b"static long y[]={1,2};", b"unsigned short w=-1;", b"void*q=0;", b"int**r;",
                b"int g(void){return 1;}", b"struct t;", b"struct t*u;", b"int x[0];", b"void z;", b"int k=sizeof(struct s);", b"int*m=&x;"]


def sources():
    """The texts that all others are made of."""
    files = sorted((TOP / "examples").glob("*.c")) + sorted((TOP / "bench").glob("*.c"))
    return [path.read_bytes() for path in files] + SMALL * 2


def inputs():
    files = sorted((TOP / "examples").glob("*.txt"))
    return [b"", b"a", b"1\n2\n3\n", bytes(range(256))] + [path.read_bytes()[:400] for path in files]


@functools.lru_cache(200)
def known_pieces(text):
    return tuple(PIECE.findall(text))


def pieces(text):
    return list(known_pieces(text))


def is_word(piece):
    return piece[:1].isalpha() or piece[:1] == b"_"


FORMS = (b"(", b")", b"{", b"}", b";", b",")
KEYS = frozenset(WORDS[:32])


def is_name(piece):
    return is_word(piece) and piece not in KEYS


def place_of(draw, list_of, test):
    """The place of some piece that meets the test, or None where it isn't soon found."""
    for _ in range(40):
        at = draw.randrange(len(list_of))
        if test(list_of[at]):
            return at
    return None


def name_of(draw, list_of):
    """A name of the text, or another word."""
    at = place_of(draw, list_of, is_name)
    return draw.choice(WORDS) if at is None else list_of[at]


def other_piece(draw, piece, here):
    """A piece of the same sort as this one, most of the time."""
    if draw.random() < 0.02:
        return draw.choice(draw.choice((WORDS, NUMBERS, MARKS, STATEMENTS)))
    if piece in TYPES:
        return draw.choice(TYPES)
    if is_word(piece):
        return name_of(draw, here) if draw.random() < 0.96 else draw.choice(WORDS)
    if piece[:1].isdigit() or piece[:1] in (b"'", b'"'):
        return draw.choice(NUMBERS)
    alike = [row for row in ALIKE if piece in row]
    return draw.choice(draw.choice(alike) if alike else MARKS)


def change_piece(draw, list_of):
    at = place_of(draw, list_of, lambda it: it not in FORMS and not it.isspace() and it not in KEYS)
    if at is None:
        return
    list_of[at] = other_piece(draw, list_of[at], list_of)


def change_word(draw, list_of):
    """Puts a name of the text in another one's place, or a number."""
    at = place_of(draw, list_of, lambda it: is_name(it) or it in TYPES or it[:1].isdigit())
    if at is not None:
        list_of[at] = other_piece(draw, list_of[at], list_of)


def drop_pieces(draw, list_of):
    at = draw.randrange(len(list_of))
    del list_of[at:at + draw.choice((1, 1, 1, 2, 3, 8))]


def add_piece(draw, list_of):
    list_of.insert(draw.randrange(len(list_of) + 1), draw.choice(draw.choice((WORDS, NUMBERS, MARKS, STATEMENTS, STATEMENTS))))


def double_pieces(draw, list_of):
    at = draw.randrange(len(list_of))
    part = list_of[at:at + draw.choice((1, 2, 5, 20))]
    list_of[at:at] = part * draw.choice((1, 1, 1, 2, 30))


def swap_pieces(draw, list_of):
    a, b = draw.randrange(len(list_of)), draw.randrange(len(list_of))
    list_of[a], list_of[b] = list_of[b], list_of[a]


def move_pieces(draw, list_of):
    at = draw.randrange(len(list_of))
    part = list_of[at:at + draw.choice((1, 3, 10, 40))]
    del list_of[at:at + len(part)]
    to = draw.randrange(len(list_of) + 1)
    list_of[to:to] = part


def places(list_of):
    """Where a piece ends that a statement may follow, and where a declaration may: in a function, and outside or at its front."""
    depth, statements, declarations = 0, [], []
    for at, piece in enumerate(list_of, 1):
        depth += (piece == b"{") - (piece == b"}")
        if piece in (b"{", b"}", b";") and depth > 0:
            statements.append(at)
        if piece == b"{" or piece in (b"}", b";") and depth == 0:
            declarations.append(at)
    return statements, declarations


def add_statement(draw, list_of):
    """Puts a statement or declaration where it has a chance to be taken; with names of the text, half of the time."""
    is_statement = draw.random() < 0.7
    ends = places(list_of)[0 if is_statement else 1]
    if ends:
        new = pieces(draw.choice(STATEMENTS if is_statement else DECLARATIONS))
        if draw.random() < 0.5:
            new = [name_of(draw, list_of) if len(it) == 1 and is_word(it) else it for it in new]
        at = draw.choice(ends)
        list_of[at:at] = new


def double_statement(draw, list_of):
    """Puts a part that ends at a `;` a second time, behind another one."""
    ends = places(list_of)[0]
    if len(ends) > 1:
        at = draw.randrange(len(ends) - 1)
        part = list_of[ends[at]:ends[at + 1]]
        to = draw.choice(ends)
        list_of[to:to] = part


# those that keep a text's form, most of the time, and those that break it
KEEPING = [change_piece] * 3 + [change_word] * 5 + [add_statement] * 5 + [double_statement] * 2
BREAKING = [drop_pieces, add_piece, double_pieces, swap_pieces, move_pieces]


def damage_bytes(draw, text):
    """Turns, cuts, drops and adds bytes of any value."""
    bytes_of = bytearray(text)
    for _ in range(draw.choice((1, 1, 2, 5))):
        at = draw.randrange(len(bytes_of) + 1)
        way = draw.randrange(4)
        if way == 0 and at < len(bytes_of):
            bytes_of[at] ^= 1 << draw.randrange(8)
        elif way == 1:
            del bytes_of[at:at + draw.choice((1, 1, 10, 1000))]
        elif way == 2:
            bytes_of[at:at] = draw.randbytes(draw.choice((1, 1, 4)))
        else:
            bytes_of[at:at] = bytes([draw.choice(b"\0\xff'\"\\/*#\n{}()")]) * draw.choice((1, 1, 500))
    return bytes(bytes_of)


def mutated(draw, source_list):
    """A text made of one of these, or of two, by a few changes."""
    list_of = pieces(draw.choice(source_list))
    if draw.random() < 0.1:
        other = pieces(draw.choice(source_list))
        at, to = draw.randrange(len(list_of) + 1), draw.randrange(len(other) + 1)
        list_of = list_of[:at] + other[to:]
    for _ in range(draw.choice((0, 1, 1, 1, 1, 2, 2, 3, 4, 8))):
        if list_of:
            draw.choice(KEEPING if draw.random() < 0.85 else BREAKING)(draw, list_of)
    text = b"".join(list_of)
    return damage_bytes(draw, text) if draw.random() < 0.06 else text
