# What sed has beside s: the hold space, branches, y, addresses, and text that is put in.
1{h;d}
2{s/^/gone: /;p;d}
3{
    y/3/t/
    s/t/number three/
    s/^/3: /
}
/^1[0-9]$/H
20,$!b
21,25d
26{x;s/\n/,/g;G}
:more
s/\([0-9]\)\([0-9]\)/\1-\2/
t more
$a\
the end
$s/.*/& lines/
