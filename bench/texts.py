#!/usr/bin/env python3
"""Makes a large C program: texts.py KIND PARTS. Each part has its number in place of `#`."""
import sys

# what stands in front of the parts, a part, and what stands behind them; for parts one inside another, what the innermost holds and what
# closes one, which serves for a second row of parts too
KINDS = {
    "empty-statements": ("int main(void){", ";", "return 0;}"),
    "sums": ("int total,table[9],i;int count(int n,int m){return n+m;}int main(void){", "total=total*7+table[i]-count(i,3);", "return 0;}"),
    "functions": ("", "int f#(int a){return a+1;}", "int main(void){return 0;}"),
    "calls": ("int f(void){return 0;}int main(void){", "f();", "return 0;}"),
    "variables": ("int main(void){", "int a#;", "return 0;}"),
    "file-variables": ("", "int a#;", "int main(void){return 0;}"),
    "fields": ("struct s{", "int a#;", "};int main(void){return 0;}"),
    "structures": ("", "struct s#{int a;};", "int main(void){return 0;}"),
    "enumerators": ("enum{", "a#,", "last};int main(void){return 0;}"),
    "case-labels": ("int main(void){switch(1){", "case #:", ";}return 0;}"),
    "initialisers": ("int a[]={0", ",1", "};int main(void){return 0;}"),
    "nested-scopes": ("int x;int main(void){", "{int a#;x;", "return 0;}", "", "}"),
    "array-pairs": ("int main(void){int a[9];", "a[0]=1;", "return 0;}", "", "a[0];"),
    "array-steps": ("int main(void){int a[9];", "a[0]++;", "return 0;}"),
    "assignments": ("int main(void){int x=0;", "x=x;", "return 0;}"),
    "variables-used": ("int main(void){", "int a#=1;", "return 0;}", "", "a#;"),
    "loop-assignments": ("int main(void){int n=1,x=0,y=0;while(n){", "x=x+y;y=x;", "}return 0;}"),
    "parentheses": ("int main(void){return ", "(", ";}", "0", ")"),
}


def text(kind, parts):
    head, part, tail, *nest = KINDS[kind]
    middle, close = nest or ("", "")

    def row(it):
        return "".join(it.replace("#", str(k)) for k in range(parts))

    return head + row(part) + middle + row(close) + tail


if __name__ == "__main__":
    sys.stdout.write(text(sys.argv[1], int(sys.argv[2])))
