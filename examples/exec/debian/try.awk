# Fields, arrays, regular expressions and functions of awk; files that it reads and writes.
function twice(s, i) { i = s s; return i }
BEGIN {
  FS = ":"
  while ((getline line < "lines.txt") > 0)
    n++
  close("lines.txt")
  print n, "lines"
}
/^#/ { next }
{ count[$2]++; sum += $1; print toupper($2) > "upper.txt" }
$1 ~ /[13579]$/ { odd++ }
END {
  for (kind in count)
    print kind, count[kind] > "counts.txt"
  close("upper.txt")
  while ((getline line < "upper.txt") > 0)
    text = text " " line
  print sum, odd, text
  print substr("hello", 2, 3), index("hello", "l"), match("foobar", /o+/), RSTART, RLENGTH
  print sprintf("%5.2f|%-5s|%c|%x", 3.14159, "ab", 65, 255), twice("ab"), length()
  s = "one two two"; print gsub(/two/, "[&]", s), s, split("a,b,c", parts, ","), parts[3]
  print 1e3, 2 ^ 10, int(-3.7), 1 / 3, exp(0), ("10" < "9"), (10 < 9)
  print "to standard error" > "/dev/stderr"
  exit 3
}
