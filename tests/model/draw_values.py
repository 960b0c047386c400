"""Draws commands on values, and words for them.

Each kind has lines, one of which is drawn: in it <kind> stands for something of that kind. A line after `3* ` counts as three.
"""

import re

DEEPEST = 3

SLOT = re.compile(rb"<([a-z]+)>")
WEIGHED = re.compile(rb"(?:(\d+)\* )?(.*)")

# What a script begins with.
FRONT = rb"""
set t <plain>
set u <plain>
set l <plainlist>
array set A {x 1 y {a b} z {}}
set n <digit>
array set expect_out {buffer {ab, 12 } 0,string 12 1,string ab}
"""

KINDS = {
    "plain": rb"""
abc
{a b c}
{}
{A b}
"a\tb\n"
a-b,c
007
{ 7 }
x=22,y=5
"one 1\r\ntwo 2\r\n"
a.b.c
\{
{ab[]ba$}
true
\u00e9a
\xffb\xc3
{#a \;}
aBaAbB
""",
    "text": rb"""
2* $t
2* $u
2* $expect_out(buffer)
$expect_out(0,string)
$expect_out(1,string)
$A(<key>)
$n
$l
3* <plain>
<number>
"<<inner>,<inner>>"
2* [<command>]
""",
    "inner": rb"""
$t
${u}
$A(<key>)
a\tb
7
[<command>]
""",
    "key": rb"""
2* x
y
z
$t
[llength $l]
""",
    "digit": rb"""
0
1
2
3
5
7
-1
-4
10
255
""",
    "number": rb"""
10* <digit>
9223372036854775807
-9223372036854775808
007
1.5
$n
[llength <list>]
[string length <text>]
[expr <expression>]
""",
    "count": rb"""
0
1
2
2
3
-1
x
[llength $l]
""",
    "index": rb"""
2* 0
1
2
3
-1
2* end
end-1
end+1
1+1
2-1
$n
$n-1
end-$n
9223372036854775807+1
x
01
[llength $l]
""",
    "plainlist": rb"""
{a b c}
{}
{{a b} c {} {d e}}
{3 1 2 10 -4}
{a B A b a}
{{x 1} {y 2} {x 3}}
{a}
{# b}
""",
    "list": rb"""
4* $l
6* <plainlist>
$t
$expect_out(buffer)
"a \{"
[list <text> <text>]
[split <text> <marks>]
[split <text>]
[lsort <list>]
[lrange <list> <index> <index>]
[concat <list> <list>]
[array names A]
[lreverse <list>]
[<command>]
""",
    "marks": rb"""
,
{ }
ab
{}
\n
"\r\n"
=,
<plain>
""",
    "name": rb"""
4* t
4* u
4* l
3* n
2* A(<key>)
A
t(x)
nosuch
""",
    "glob": rb"""
a*
*b*
?
[a-c]*
{*[0-9]}
\\*
*
{[}
{}
*\xc3*
$t
<plain>
""",
    "regular": rb"""
5* {<atom><times><atom><times>}
{^<atom><times>}
{<atom><times>$}
{<atom><times>|<atom>}
{([a-b]<times>)<atom>}
{[a-c]+}
{(\w+)[-=,](\d+)}
{^\s*(.*?)\s*$}
{(a)|(b)}
{\.}
{[[:alpha:]]+}
{[^ \r\n]+}
{b{1,2}}
{b*}
{}
{$}
{^}
{(a+)(b+)?}
{([ab])([^b])}
{\W}
{[]a-]}
{\u00e9|\xe9}
{a{2}?|1}
a
b
(
{a**}
{[b-a]}
{\q}
<plain>
""",
    "atom": rb"""
a
b
1
.
[ab]
[^a]
[^\n]
[a-z\d]
[[:upper:]_]
\w
\W
\d
\s
\S
\.
\,
(a)
(?:ab)
(a|b)
(b|ab)
(.)
}
{
]
[]]
[a-
[-b]
\x41
\u00e9
\n
\q
""",
    "times": rb"""

3* *
+
?
{2}
{1,2}
{0,}
*?
+?
??
{1,}?
**
{2,1}
""",
    "by": rb"""
x
{}
{<&>}
{\1-\2}
{\0\\\&\n}
<text>
""",
    # an expression in braces
    "expression": rb"""
4* {<operation>}
{<operand>}
{<operation> ? <operand> : <operation>}
{!(<operation>)}
{<operation> && <operation>}
{<operation> || <operation>}
{<operand> <operator>}
2* {$n < 3}
{$t eq $u}
{$n}
""",
    "operation": rb"""
3* <operand> <operator> <operand>
2* <operand> <operator> <operand> <operator> <operand>
<operand> <operator> <operand> <operator> <operand> <operator> <operand>
(<operand> <operator> <operand>) <operator> <operand>
<sign><operand>
<operand><sign><operand>
""",
    "operator": rb"""
+
-
*
/
%
**
<<
>>
<
>
<=
>=
==
!=
eq
ne
in
ni
&
^
|
&&
||
""",
    "sign": rb"""
-
+
~
!
""",
    "operand": rb"""
2* 0
2* 1
2* 2
3
7
-3
0x1f
010
9223372036854775807
08
true
no
"a"
{b}
"3"
4* $n
$t
$A(<key>)
"<inner>"
[llength <list>]
[string length <text>]
[incr n]
[<command>]
""",
    "body": rb"""
{}
{lappend l $n}
{append t $u}
{set u $t}
break
continue
2* {<command>}
{<command>; <command>}
{if <expression> break; <command>}
{if <expression> continue; <command>}
""",
    "format": rb"""
%s
%d
%5d|
%-5s|
%05d
%x
%X
%o
%u
%c
%%
%.2s
%.4d
%6.3x|
%ld
{%s=%d}
{%s, %s}
%*d|
%-*s|
%03c
%q
%5%
{a %}
%2000000d
""",
    "scanned": rb"""
{%d %s}
%d,%d
{%s %*s %d}
%d%s
{a%s %d}
{%*d %d}
x=%d,y=%d
%q
""",
    "class": rb"""
alnum
alpha
ascii
boolean
control
digit
false
graph
integer
lower
print
punct
space
true
upper
wordchar
xdigit
letter
""",
    "nocase": rb"""

-nocase
""",
    "searched": rb"""

-exact
2* -glob
-regexp
-all
-inline
-all -inline
-not
-nocase
-all -not
-start <index>
-regexp -nocase
-exact -all -inline -nocase
-inline -start <index> -not
""",
    "sorted": rb"""

-integer
-decreasing
-unique
-nocase
-index <index>
-integer -decreasing -unique
-nocase -unique
-decreasing -nocase
-index 0 -unique
-integer -index <index>
""",
    "found": rb"""

-nocase
-all
-inline
-indices
-lineanchor
--
-all -inline
-all -inline -indices
-start <index>
-all -start <index> --
-nocase -lineanchor
-inline -start <index>
""",
    "replaced": rb"""

-all
-nocase
-lineanchor
--
-start <index>
-all -start <index>
-all -nocase
-all -lineanchor --
""",
    "chosen": rb"""

--
-exact --
-glob --
-glob
-regexp --
-exact
-glob -regexp --
""",
    "case": rb"""
a
b
3
abc
{a b c}
*a*
{[a-c]*}
^a
{b|c}
default
""",
    # an option of string, and its words
    "option": rb"""
length <text>
3* index <text> <index>
2* range <text> <index> <index>
2* equal <nocase> <text> <text>
2* equal <nocase> $t $u
2* compare <nocase> <text> <text>
2* compare <nocase> $t $u
3* match <nocase> <glob> <text>
first <plain> <text>
first a <text>
last <plain> <text>
last a <text>
2* map <nocase> {a 1 b {} ab x} <text>
map <nocase> {A <> \r {}} <text>
map <nocase> <list> <text>
3* is <class> <text>
2* is <class> -strict <text>
3* is <class> <plain>
is integer <number>
is boolean <operand>
repeat <text> <count>
reverse <text>
2* tolower <text>
2* toupper <text>
trim <text>
trim <text> <plain>
trimleft <text>
trimleft <text> ab
trimright <text>
trimright <text> "\r\n"
""",
    "array": rb"""
exists <arrayname>
get <arrayname>
get <arrayname> <glob>
names <arrayname>
names <arrayname> <glob>
set <arrayname> <list>
2* set A {x 5 k new}
size <arrayname>
unset <arrayname> <glob>
unset <arrayname>
""",
    "arrayname": rb"""
4* A
B
t
A(x)
expect_out
""",
    "level": rb"""

1
#0
2
""",
    "version": rb"""

5
5.40
5.46
8.4
9
x
""",
    "word": rb"""
a
b
{}
0
1
-1
end
x(1)
{a b}
"a \{"
-nocase
-all
--
-x
-start
-index
-strict
-inline
{a - b}
%d
(
x
$t
[<command>]
""",
    # names of commands, also wrong ones
    "anyname": rb"""
append
array
array names
array set
catch
concat
error
eval
exp_version
expr
for
foreach
format
if
incr
info
info exists
join
lappend
lassign
lindex
linsert
list
llength
lrange
lrepeat
lreplace
lreverse
2* lsearch
lset
2* lsort
nosuch
package
package require
proc
2* regexp
2* regsub
scan
set
split
string
string compare
string first
string is
string map
string match
string repeat
string replace
string trim
subst
switch
unset
upvar
while
""",
    "many": rb"""
1048576
1048577
9223372036854775807
""",
    "deep": rb"""
199
200
201
""",
    "opening": rb"""
(
-
!
1?
{1 ? 2 : }
""",
    "again": rb"""
g
eval g
list [g]
if 1 {catch g m; set m}
foreach v {1 2} g
""",
    "values": rb"""
<text>
<text> <text>
<number>
<number> <text>
$n $t
""",
    "names": rb"""

<name>
u n
t A(<key>) n
t u
""",
    "passive": rb"""
exp_internal 1
exp_internal -f a 0
debug 0
exp_debug
strace 4
exp_strace 1
trap exit INT
exp_trap {puts a} {HUP INT}
""",
    "replaceable": rb"""
split
lsort
format
regexp
subst
string
set
lset
""",
    "command": rb"""
2* set <name> <text>
2* set l <list>
set n <number>
set <name>
2* append <name> <text> <text>
append t <text>
append <name>
incr n
incr n <number>
incr <name>
2* lappend l <text> <text>
lappend <name> <text>
lappend <name>
unset <name>
2* unset -nocomplain <name> <name>
2* info exists <name>
6* array <array>
list <text> <text>
list
llength <list>
2* lindex <list> <index>
lindex <list>
2* lrange <list> <index> <index>
linsert <list> <index> <text>
linsert <list> <index> <text> <text>
lreplace <list> <index> <index>
lreplace <list> <index> <index> <text> <text>
lset l <index> <text>
lset <name> <index> <text>
lassign <list> <names>
2* lassign <list> t u
lreverse <list>
lrepeat <count> <text>
lrepeat <count> <text> a
4* lsearch <searched> <list> <glob>
2* lsearch -regexp <searched> <list> <regular>
lsearch -exact <list> <text>
4* lsort <sorted> <list>
concat <text> <list>
concat <text> <text> { }
concat
join <list> <marks>
join <list>
split <text> <marks>
split <text>
lrepeat <many> <text>
string length [string repeat a <many>]$t
string repeat ab <many>
expr [string repeat <opening> <deep>]1
eval [string repeat {list [} <deep>]
subst -nocommands {$t\t[x]${u}}
subst -nocommands {a$A(<key>)\u0041}
subst -nocommands <text>
subst -nocommands "\$t\$(\{"
3* format <format> <values>
2* scan <text> <scanned> t u
scan <text> <scanned> <names>
scan "12 ab" {%d %s} n t
scan "x=3,y=x" <scanned> n t
24* string <option>
6* regexp <found> <regular> <text> <names>
4* regexp <found> <regular> <text>
4* regsub <replaced> <regular> <text> <by>
2* regsub <replaced> <regular> <text> <by> <name>
3* switch <chosen> <text> {<case> <body> <case> - b <body> default <body>}
2* switch <chosen> <text> <case> <body> default <body>
switch <chosen> <text> {<case> <body> <case> <body>}
switch <chosen> <text> {a}
12* expr <expression>
expr <operand> <operator> <operand>
2* if <expression> <body> else <body>
if <expression> then <body> elseif <expression> <body>
if <expression> <body>
for {set i 0} {$i < <count>} {incr i} <body>
for {set i 0} {$i < 3} {incr i} <body>
for {} <expression> <body> <body>
while {[incr n] < 4} <body>
while <expression> {<command>; break}
foreach n <list> <body>
foreach {t u} <list> <body>
foreach t <list> u <list> <body>
foreach line [split <text> \n] {lappend l [string trim $line]}
eval <body>
eval list <list>
eval [list set u <text>]
eval set u <text>
catch <body>
catch <body> u
error <text>
error <text> info code
package require Tcl <version>
package require Expect <version>
package require <text>
exp_version <version>
expect_version <version>
5* <passive>
proc g {a {b 2} args} {list $a $b $args}; g <text>
proc g {a {b 2} args} {list $a $b $args}; g <text> <text> <text>
proc g {a {b 2}} {set t $a; <command>; return $b}; g
proc g name {upvar <level> $name v; append v x}; g <name>
proc g {} {upvar t v A(x) w; set v 1}; g
proc g {} {upvar <level> t v; upvar l l; <command>; set v}; g
proc g {} {global t l A; <command>}; g
proc g {} {upvar A V; array names V}; g
proc g {} {foreach t <list> {return $t}}; g
proc g {} <body>; g
proc g {} {<again>}; g
proc <replaceable> args {return own}
proc {a b} {a(x) {b c}} {list $b}; {a b} <text>
<anyname> <word> <word>
<anyname> <word>
<anyname>
<anyname> <word> <word> <word>
<anyname> <word> <word> <word> <word>
""",
}


def read(lines):
    """The lines, each as often as it counts. The newline after the quotes begins none, so an empty first line is a line."""
    found = [WEIGHED.fullmatch(line).groups() for line in lines[1:].removesuffix(b"\n").split(b"\n")]
    return [line for many, line in found for _ in range(int(many or 1))]


CHOICES = {kind.encode(): read(lines) for kind, lines in KINDS.items()}
# What is drawn at the greatest depth: lines without kinds, if there are any.
LEAVES = {kind: [line for line in lines if not SLOT.search(line)] or lines for kind, lines in CHOICES.items()}


class Values:
    """Draws words and commands by their kinds."""

    def __init__(self, rng):
        self.rng = rng

    def drawn(self, kind, depth=0):
        is_leaf = depth >= DEEPEST or self.rng.random() < 0.15 * depth
        line = self.rng.choice((LEAVES if is_leaf else CHOICES)[kind])
        return self.filled(line, depth)

    def filled(self, line, depth=0):
        return SLOT.sub(lambda slot: self.drawn(slot[1], depth + 1), line)

    def front(self):
        """Commands that set the variables which the others use."""
        return [self.filled(line) for line in read(FRONT) if self.rng.random() < 0.95]
