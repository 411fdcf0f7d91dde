#!/bin/bash
# Runs every case on the program at $1 and prints, for each, the command, the
# status, standard output and standard error. Two programs' prints are compared
# with diff.

program=$(realpath "$1") || exit 2
here=$(cd "$(dirname "$0")" && pwd)
folder=$(mktemp -d) || exit 2
trap 'rm -rf "$folder"' EXIT
mkdir "$folder/work"
cd "$folder/work" || exit 2
export LC_ALL=C

part() { printf '\n======== %s\n' "$1"; }

# What the program said on standard error, and its status. What it says of a bad command line is its own.
ended() { # status
  local error
  IFS= read -r -d '' error <../error
  [ $1 -eq 2 ] && error=
  printf '%s\n%sstatus %s\n' '-- standard error' "$error" $1
}

# One case: the words of the command.
run() {
  printf '\n$ settle'
  [ $# -gt 0 ] && printf ' %q' "$@"
  printf '\n%s\n' '-- standard output'
  "$program" "$@" 2>../error
  ended $?
}

# A command line that asks for help or the version: what it prints is the program's own.
asks() {
  printf '\n$ settle'
  printf ' %q' "$@"
  "$program" "$@" >../print 2>../error
  printf '\nstatus %s, prints %s, says %s\n' $? "$([ -s ../print ] && echo something)" "$(cat ../error)"
}

# The same where standard output is full, and where nobody reads it any more.
unwritten() {
  printf '\n$ settle'
  printf ' %q' "$@"
  printf '\n'
  "$program" "$@" >/dev/full 2>../error
  ended $?
  { sleep 0.2; "$program" "$@" 2>../error; ended $? >../end; } | true
  cat ../end
}

# The same with an office file of the given text (as for printf).
office() {
  printf '\n# office.txt: %q' "$1"
  printf "$1" >office.txt
  run prices office.txt sheet.bin
}

# A correction on an office file of the given text; then FROM, TO and PRICE.
correct() {
  printf '\n# office.txt: %q' "$1"
  printf "$1" >office.txt
  run correct office.txt "${@:2}"
}

# The same with a text for a sheet; made.bin is to be left alone by a refusal.
make() {
  printf '\n# text.txt: %q' "$1"
  printf "$1" >text.txt
  printf 'as it was' >made.bin
  run sheet make text.txt made.bin
  untouched made.bin || bytes made.bin
}

# The same with a sheet of the given bytes, shown and priced.
sheet() {
  printf '\n# bad.bin: %q' "$1"
  printf "$1" >bad.bin
  run sheet show bad.bin
  run prices rule.txt bad.bin
}

# Whether a file still has the text that was put there before a refusal.
untouched() {
  local text
  IFS= read -r -d '' text 2>/dev/null <"$1"
  [ "$text" = 'as it was' ] && printf '%s: as it was\n' "$1"
}

bytes() {
  printf -- '-- bytes of %s\n' "$1"
  od -An -v -tx1 "$1"
}

# Makes, shows, makes again, compares the bytes, and prices.
whole() { # text file, office file
  run sheet make "$1" first.bin
  "$program" sheet show first.bin >shown.txt
  run sheet show first.bin
  run sheet make shown.txt second.bin
  if cmp -s first.bin second.bin; then echo 'the same bytes'; else echo 'OTHER BYTES'; fi
  run prices "$2" first.bin
}

# Makes and prices only.
priced() { # text file, office file
  run sheet make "$1" first.bin
  run prices "$2" first.bin
}

# The tables that a command wrote into a folder.
tables() {
  local table
  for table in "$1"/*; do
    printf -- '-- %s\n' "$table"
    cat "$table"
  done
}

# Lines of a word, a date and a rate for so many days from day number $2 on;
# the rate is $4, or another one each day where there is none.
days() { # word, first day, count, rate
  awk -v word="$1" -v first="$2" -v count="$3" -v rate="$4" '
    function length_of(year, month) {
      if (month == 2) return year % 4 ? 28 : 29
      return (month == 4 || month == 6 || month == 9 || month == 11) ? 30 : 31
    }
    BEGIN {
      year = 2000; month = 1; left = first; state = 7919
      while (left >= length_of(year, month)) {
        left -= length_of(year, month)
        if (++month > 12) { month = 1; year++ }
      }
      for (i = 0; i < count; i++) {
        state = (state * 69069 + 12345) % 4294967296
        part = int(state / 65536)
        percent = rate != "" ? rate : sprintf("%d.%06d", part % 100, part * 15 % 1000000)
        printf "%s %04d-%02d-%02d %s\n", word, year, month, left + 1, percent
        if (++left == length_of(year, month)) {
          left = 0
          if (++month > 12) { month = 1; year++ }
        }
      }
    }'
}

# so many bytes of one value: 100 '\2'
repeat() { head -c "$1" /dev/zero | tr '\0' "$2"; }

cp "$here/../crates/settle/data/office.txt" "$here/../crates/settle/data/sheet.txt" . || exit 2
cp office.txt example-office.txt
printf 'calendar rule\n' >rule.txt
"$program" sheet make sheet.txt sheet.bin >/dev/null 2>&1

# ------------------------------------------------------------------
part 'the main example'
whole sheet.txt example-office.txt
bytes first.bin

part 'the example as objects and tables'
mkdir tables
run prices --json example-office.txt first.bin
run prices --csv tables example-office.txt first.bin
tables tables
run prices --csv=./tables/ --json example-office.txt first.bin
run prices --csv no-folder example-office.txt first.bin
run prices --csv no-folder example-office.txt missing.bin
run prices --csv no-folder rule.txt not-there.bin

part 'the example print'
printf 'session 2026-12-30\ntrade 0 1 DI1F27 10.000 10\ntrade 2 3 DI1Z26 10.000 5\n' >two.txt
whole two.txt example-office.txt
bytes first.bin

part 'a sheet without lines'
printf 'session 2026-12-30\n' >none.txt
whole none.txt example-office.txt
bytes first.bin
run prices --json --csv tables example-office.txt first.bin
tables tables

# ------------------------------------------------------------------
part 'bad command lines'
run
run nothing
run Help
run rnu
run help more
run prices
run prices rule.txt
run prices rule.txt sheet.bin more
run prices --strict rule.txt sheet.bin
run prices --csv rule.txt sheet.bin
run prices --json --json rule.txt sheet.bin
run correct
run correct rule.txt
run correct rule.txt 2026-12-30
run correct rule.txt 2026-12-30 2027-01-04
run correct rule.txt 2026-12-30 2027-01-04 99925.00 more
run correct --json rule.txt 2026-12-30 2027-01-04 99925.00
run correct missing.txt x y
run Correct rule.txt 2026-12-30 2026-12-30 99925.00
run sheet
run sheet show
run sheet show sheet.bin more
run sheet show --json sheet.bin
run sheet make sheet.txt
run sheet make sheet.txt made.bin more
run sheet print sheet.bin
run show sheet.bin
run price
run price 10
run price 10 252 1
run price -x 252
run price -1x 252
run price - 252
run factor
run factor 10 1
run --json
run -x
run ''
asks --help
asks -h
asks --version
asks -V
for name in run prices correct sheet price factor help; do
  asks $name --help
  asks $name -h
done
asks sheet show --help
asks sheet make -h

part 'words that begin with a hyphen'
cp sheet.bin ./-sheet
run sheet show -sheet
run sheet show -- -sheet
run sheet show ./-sheet
run price -- -1 252
run price -0.5 252
run price -- 10 252
run prices rule.txt sheet.bin --json
run prices --json -- rule.txt -sheet

part 'files that cannot be read or written'
mkdir a-folder
printf 'calendar rule\n# \377\n' >not-utf8.txt
run prices missing.txt sheet.bin
run prices rule.txt missing.bin
run prices missing.txt missing.bin
run prices a-folder sheet.bin
run prices rule.txt a-folder
run prices not-utf8.txt sheet.bin
run correct missing.txt 2026-12-30 2027-01-04 99925.00
run correct missing.txt x y z
run correct a-folder 2026-12-30 2027-01-04 99925.00
run correct not-utf8.txt 2026-12-30 2027-01-04 99925.00
run sheet show missing.bin
run sheet show a-folder
run sheet make missing.txt made.bin
run sheet make a-folder made.bin
run sheet make not-utf8.txt made.bin
run sheet make sheet.txt no-folder/made.bin
run sheet make sheet.txt a-folder
run sheet make sheet.txt /dev/null
run sheet make sheet.txt /dev/full
mkdir taken.bin.new
run sheet make sheet.txt taken.bin
ls | grep new
rmdir taken.bin.new
echo 'a file in the place of another'
kept() { stat -c '%F %a' "$@"; }
for length in 251 252 255 256; do
  long=$(repeat $length x)
  run sheet make sheet.txt $long
  run sheet make sheet.txt ./$long
  kept $long && rm $long
done
printf 'as it was' >private.bin
chmod 600 private.bin
run sheet make sheet.txt private.bin
kept private.bin
chmod 444 private.bin
printf 'as it was' >other.bin
ln -s "$PWD/other.bin" private.bin.new
run sheet make sheet.txt private.bin
kept private.bin
untouched other.bin
ln -s private.bin link.bin
ln -s link.bin link-to-link.bin
run sheet make sheet.txt link-to-link.bin
kept link-to-link.bin link.bin private.bin
bytes private.bin
ln -s nowhere.bin link-to-nothing.bin
run sheet make sheet.txt link-to-nothing.bin
kept link-to-nothing.bin nowhere.bin
ln -s round.bin round.bin
run sheet make sheet.txt round.bin
kept round.bin
ln -s a-folder link-to-folder.bin
run sheet make sheet.txt link-to-folder.bin
kept link-to-folder.bin
ls -A . a-folder | grep new
rm private.bin* other.bin nowhere.bin link*.bin round.bin
echo 'a file of 64 MiB, one more byte, and one that never ends'
{ printf 'calendar rule\n#'; head -c 67108849 /dev/zero; } >64.txt
run prices 64.txt sheet.bin
printf x >>64.txt
run prices 64.txt sheet.bin
run sheet make 64.txt made.bin
run sheet show 64.txt
run prices rule.txt 64.txt
run run 64.txt
rm 64.txt
run prices /dev/zero sheet.bin
run prices rule.txt /dev/zero
run sheet make /dev/zero made.bin
run sheet show /dev/zero
run run /dev/zero
office 'calendar marked /dev/zero\n'
echo 'standard output'
unwritten help
unwritten price 10 252
unwritten prices rule.txt sheet.bin
unwritten prices --json rule.txt sheet.bin
unwritten sheet show sheet.bin

# ------------------------------------------------------------------
part 'price: the figures in the tables'
run price 10 252
run price 10 504
run price 0 2520
run price 10 1
run price 10.000 2

part 'price: limits and forms'
for days in 0 1 125 251 252 253 504 2519 2520; do
  for rate in 0.001 13.905 99.999; do
    run price $rate $days
  done
done
# a half of a centavo exactly, and just under one
run price 2.85 251
run price 3.96 229
run price 1.37 104
run price 10.5 252
run price 10.50 252
run price 10.500 252
run price 10.005 252
run price 0000000010 0000000252
run price 0000000010.000 252
run price 99.999 2520
run price 100 2520
run price 4294967.295 1
run price 4294967.296 1
run price 4294968 1
run price 00000000010 1
run price 10. 1
run price .5 1
run price 10.0000 1
run price 10,5 1
run price -1 1
run price +1 1
run price 1e1 1
run price 1.2.3 1
run price '' 1
run price ' 10' 1
run price 10% 1
run price ten 1
run price 10 2521
run price 10 4294967295
run price 10 4294967296
run price 10 00000000001
run price 10 1.0
run price 10 -1
run price 10 ''
run price 10 ten
run price ten ten
run price 10 '١'

part 'factor: the figures in the tables'
run factor 0
run factor 10
run factor 21

part 'factor: limits and forms'
for rate in 0.000001 0.0001 0.5 2 4.15 6.4 11.65 13.65 13.651 13.6512 13.65123 14.9 14.900000 25.5 45 50 75.123456 99 99.999 99.999999; do
  run factor $rate
done
run factor 100
run factor 99.9999999
run factor 4294.967295
run factor 4294.967296
run factor 0000000010.000000
run factor 00000000010
run factor 10.
run factor .1
run factor ten
run factor ''

# ------------------------------------------------------------------
part 'office: messages'
office ''
office '\n\n# only a note\n'
office 'exception 2027-01-01 closed\ncalendar rule\n'
office '# a note\n\nnothing\n'
office 'Calendar rule\n'
office 'calendar\n'
office 'calendar other\n'
office 'calendar marked\n'
office 'calendar rule more\n'
office '\ncalendar marked a b\n'
office 'calendar rule\ncalendar rule\n'
office 'calendar rule\nexception 2027-01-01 closed\n\ncalendar marked x\n'
repeat 36525 '\2' >every-day.bin
office 'calendar marked every-day.bin\nexception 2027-01-01 closed\n'
office 'calendar marked every-day.bin\ncalendar rule\n'
office 'calendar marked every-day.bin\nnothing\n'
office 'calendar marked missing.bin\n'
office '\n# a note\ncalendar marked a-folder\n'
office 'calendar rule\nexception\n'
office 'calendar rule\nexception 2027-01-01\n'
office 'calendar rule\nexception 2027-01-01 closed reserve\n'
office 'calendar rule\nexception 2027-02-29 closed\n'
office 'calendar rule\nexception 2028-02-30 closed\n'
office 'calendar rule\nexception 2027-04-31 closed\n'
office 'calendar rule\nexception 2027-00-10 closed\n'
office 'calendar rule\nexception 2027-13-10 closed\n'
office 'calendar rule\nexception 2027-01-00 closed\n'
office 'calendar rule\nexception 2027-01-32 closed\n'
office 'calendar rule\nexception 1999-12-31 closed\n'
office 'calendar rule\nexception 2100-01-01 closed\n'
office 'calendar rule\nexception 2027-1-1 closed\n'
office 'calendar rule\nexception 2027/01/01 closed\n'
office 'calendar rule\nexception 02027-01-01 closed\n'
office 'calendar rule\nexception 20270101 closed\n'
office 'calendar rule\nexception 2027-01-01x closed\n'
office 'calendar rule\nexception +027-01-01 closed\n'
office 'calendar rule\nexception 2027-01-01 open\n'
office 'calendar rule\nexception 2027-01-01 Closed\n'
office 'calendar rule\nexception none open\n'
office 'calendar rule\nnothing 1 2\n'
office 'calendar rule\nexceptions 2027-01-01 closed\n'

part 'office: forms that are taken'
office 'calendar rule'
office 'calendar rule\r\nexception 2027-01-01 closed\r\n'
office '\t calendar\t \trule \t\n   # a note\n#exception\n \texception  2027-01-01\tclosed  '
office 'calendar rule\nexception 2000-01-01 closed\nexception 2099-12-31 reserve\nexception 2028-02-29 session\n'

part 'office: the first exception of a day decides'
office 'calendar rule\nexception 2026-12-30 session\nexception 2026-12-30 closed\nexception 2027-01-01 closed\nexception 2027-01-01 session\n'
office 'calendar rule\nexception 2026-12-30 closed\nexception 2026-12-30 session\n'

part 'office: the session is none of the calendar'
office 'calendar rule\nexception 2026-12-30 closed\n'
office 'calendar rule\nexception 2026-12-30 reserve\n'
office 'calendar marked every-day.bin\n'
printf '' >empty.bin
office 'calendar marked empty.bin\n'
printf 'session 2027-01-01\ntrade 0 1 DI1G27 10 6\n' >text.txt
"$program" sheet make text.txt closed.bin >/dev/null
run prices example-office.txt closed.bin
printf 'session 2026-12-27\ntrade 0 1 DI1G27 10 6\n' >text.txt
"$program" sheet make text.txt closed.bin >/dev/null
run prices example-office.txt closed.bin
repeat 70000 '\2' >long.bin
printf 'calendar marked long.bin\n' >office.txt
for day in 36524 36525 40000 65535; do
  printf 'session day %s\ntrade 0 1 DI1G27 10 6\n' $day >text.txt
  "$program" sheet make text.txt closed.bin >/dev/null
  run sheet show closed.bin
  run prices office.txt closed.bin
done

# ------------------------------------------------------------------
part 'make: messages'
make ''
make '\n# a note\n\n'
make '\n# a note\ntrade 0 1 DI1F27 10 10\nsession 2026-12-30\n'
make 'nothing\n'
make 'session\n'
make 'session 2026-12-30 more\n'
make 'session day x\n'
make 'session day 65536\n'
make 'session day 1 2\n'
make 'session night 1\n'
make 'session 2026-12-32\n'
make 'session 2100-01-01\n'
make 'session none\n'
make 'session 2026-12-30\nsession 2026-12-30\n'
make 'session 2026-12-30\ntrade 0 1 DI1F27 10 10\n\nsession\n'
make 'session 2026-12-30\ntrade\n'
make 'session 2026-12-30\ntrade 0 1 DI1F27 10\n'
make 'session 2026-12-30\ntrade 0 1 DI1F27 10 10 10\n'
make 'session 2026-12-30\ntrade 256 1 DI1F27 10 10\n'
make 'session 2026-12-30\ntrade 0 256 DI1F27 10 10\n'
make 'session 2026-12-30\ntrade x 1 DI1F27 10 10\n'
make 'session 2026-12-30\ntrade 0 -1 DI1F27 10 10\n'
make 'session 2026-12-30\ntrade 4294967296 1 DI1F27 10 10\n'
make 'session 2026-12-30\ntrade 00000000001 1 DI1F27 10 10\n'
make 'session 2026-12-30\ntrade 0 1 di1f27 10 10\n'
make 'session 2026-12-30\ntrade 0 1 DI1A27 10 10\n'
make 'session 2026-12-30\ntrade 0 1 DI1f27 10 10\n'
make 'session 2026-12-30\ntrade 0 1 DI1F2 10 10\n'
make 'session 2026-12-30\ntrade 0 1 DI1F027 10 10\n'
make 'session 2026-12-30\ntrade 0 1 DI1F2x 10 10\n'
make 'session 2026-12-30\ntrade 0 1 DI2F27 10 10\n'
make 'session 2026-12-30\ntrade 0 1 DOLF27 10 10\n'
make 'session 2026-12-30\ntrade 0 1 DI1F27 10.0000 10\n'
make 'session 2026-12-30\ntrade 0 1 DI1F27 10. 10\n'
make 'session 2026-12-30\ntrade 0 1 DI1F27 10,5 10\n'
make 'session 2026-12-30\ntrade 0 1 DI1F27 4294967.296 10\n'
make 'session 2026-12-30\ntrade 0 1 DI1F27 10 4294967296\n'
make 'session 2026-12-30\ntrade 0 1 DI1F27 10 1.5\n'
make 'session 2026-12-30\ntrade 0 1 DI1F27 10 x\n'
make 'session 2026-12-30\ntrade a b c d e\n'
make 'session 2026-12-30\ntrade 0 b c d e\n'
make 'session 2026-12-30\ntrade 0 1 c d e\n'
make 'session 2026-12-30\ntrade 0 1 DI1F27 d e\n'
make 'session 2026-12-30\nnothing\n'
make 'session 2026-12-30\ntrades 0 1 DI1F27 10 10\n'

part 'make: forms that are taken'
make 'session 2026-12-30'
make '# a note\r\n\r\nsession 2026-12-30\r\n trade\t0 1  DI1F27 10.5 10 \r\n'
make 'session day 0\ntrade 0 255 DI1F00 0 0\n'
make 'session 2000-01-01\ntrade 255 0 DI1Z99 4294967.295 4294967295\n'
make 'session 2099-12-31\ntrade 000 0000000255 DI1M50 0000000010.01 0000000001\n'
make 'session day 36524\n'
make 'session day 36525\n'
make 'session day 0000065535\n'
make 'session 2024-02-29\n'

part 'make: 256 and 257 trades'
{ printf 'session 2026-12-30\n'; for i in {1..256}; do printf 'trade %s 0 DI1G27 10 %s\n' $((i - 1)) $((i + 1)); done; } >256.txt
{ cat 256.txt; printf '# a note\ntrade 1 1 DI1G27 10 2\n'; } >257.txt
whole 256.txt example-office.txt
printf 'as it was' >made.bin
run sheet make 257.txt made.bin
untouched made.bin || bytes made.bin

# ------------------------------------------------------------------
part 'sheet: messages'
term='DI1F27\020\047\000\000\012\000\000\000'
other='DI1F2x\020\047\000\000\012\000\000\000'
sheet ''
sheet '\001'
sheet '\001\000\000'
sheet '\000\000\204\046'
sheet '\000\000\204\046\000'
sheet '\001\000\204\046'
sheet '\001\000\204\046\000\001DI1F27\020\047\000\000\012\000\000'
sheet "\\001\\000\\204\\046\\000\\001$term\\000"
sheet "\\001\\000\\204\\046\\000\\001$term"
sheet '\001\001\204\046'
sheet '\000\001\204\046'
sheet '\377\377\204\046'
sheet "\\001\\000\\204\\046\\000\\001$other"
sheet "\\002\\000\\204\\046\\000\\001\\002\\003$term$other"
sheet "\\003\\000\\204\\046\\000\\001\\002\\003\\004\\005$term$other$other"
sheet '\001\000\204\046\000\001di1f27\020\047\000\000\012\000\000\000'
sheet '\001\000\204\046\000\001DI1I27\020\047\000\000\012\000\000\000'
sheet '\001\000\204\046\000\001DI1F 7\020\047\000\000\012\000\000\000'
sheet '\001\000\204\046\000\001\377\376\000\000\000\000\020\047\000\000\012\000\000\000'
sheet "\\001\\000\\377\\377\\000\\001$other"

# ------------------------------------------------------------------
part 'every month of the year'
{ printf 'session 2026-12-30\n'; for m in F G H J K M N Q U V X Z; do printf 'trade 1 2 DI1%s27 12.35 3\ntrade 3 4 DI1%s28 12.35 4\n' $m $m; done; } >months.txt
whole months.txt example-office.txt

part 'ticks: every distance to 15'
{
  printf 'session 2026-12-01\n'
  for code in Z26 F27 G27 H27 J27 K27 M27 N27 Q27 U27 V27 X27 Z27 F28 G28 H28; do
    for rate in 10.000 10.005 10.001; do printf 'trade 1 2 DI1%s %s 2\n' $code $rate; done
  done
} >ticks.txt
priced ticks.txt example-office.txt

part 'what is not priced: the order of the causes'
# Days of December 2026 to February 2027 are sessions, the rest is closed.
{ repeat 9831 '\0'; repeat 31 '\2'; repeat 31 '\2'; repeat 28 '\2'; } >winter.bin
printf 'calendar marked winter.bin\n' >winter.txt
cat >causes.txt <<'TEXT'
session 2026-12-15
trade 0 1 DI1X26 100.001 10
trade 0 1 DI1H27 100.001 2
trade 0 1 DI1F99 10.000 3
trade 0 1 DI1Z26 100.001 4
trade 0 1 DI1Z26 10.000 5
trade 0 1 DI1F27 100.000 6
trade 0 1 DI1F27 99.999 7
trade 0 1 DI1G27 4294967.295 8
trade 0 1 DI1G27 10.001 9
TEXT
priced causes.txt winter.txt
run prices --json --csv tables winter.txt first.bin
tables tables
cat >causes.txt <<'TEXT'
session 2026-12-15
trade 0 1 DI1Z99 100.001 10
trade 0 1 DI1Z99 10.001 2
trade 0 1 DI1Z99 10.000 3
trade 0 1 DI1F00 100.001 4
trade 0 1 DI1F00 10.001 4
TEXT
priced causes.txt example-office.txt

part 'the session on the expiry, before it and after it'
for session in 2026-12-30 2027-01-04 2027-01-05; do
  printf 'session %s\ntrade 0 1 DI1F27 10 6\ntrade 0 1 DI1G27 10 2\n' $session >text.txt
  priced text.txt example-office.txt
done

part 'kinds of a marked calendar'
# From 2026-12-30: session, reserve, closed, other bytes, session on 2027-01-05; then closed.
{ repeat 9860 '\0'; printf '\002\001\000\003\377\001\002'; } >marked.bin
printf 'calendar marked marked.bin\n' >marked.txt
printf 'session 2026-12-30\ntrade 0 1 DI1F27 10 6\ntrade 0 1 DI1G27 10 2\ntrade 0 1 DI1Z26 10 2\n' >text.txt
priced text.txt marked.txt

part 'reserve days around whole years and the most'
# Every day is a session: the days to the first of a month are the reserve days.
printf 'calendar marked every-day.bin\n' >every-day.txt
for days in 1 31 251 252 253 504 756 2268 2519 2520 2521; do
  printf 'session day %s\ntrade 0 1 DI1F27 0 6\ntrade 0 1 DI1F27 0.01 2\ntrade 0 1 DI1F27 13.57 3\ntrade 0 1 DI1F27 99.99 4\n' $((9862 - days)) >text.txt
  "$program" sheet make text.txt days.bin >/dev/null
  run prices every-day.txt days.bin
done

part 'the ends of the calendar'
printf 'session 2000-01-01\ntrade 0 1 DI1F00 10 6\ntrade 0 1 DI1G00 10.001 2\ntrade 0 1 DI1Z99 10 3\n' >text.txt
whole text.txt every-day.txt
printf 'session 2099-12-31\ntrade 0 1 DI1Z99 10 6\ntrade 0 1 DI1F00 10 2\n' >text.txt
whole text.txt every-day.txt
printf 'session 2099-11-30\ntrade 0 1 DI1Z99 10 6\n' >text.txt
whole text.txt rule.txt

part 'many rates and months'
for seed in 1 2 3 4; do
  awk -v seed=$seed 'BEGIN {
    state = seed * 7919
    letters = "FGHJKMNQUVXZ"
    split("2026-12-30 2027-03-15 2024-02-29 2031-06-02", sessions, " ")
    print "session", sessions[seed]
    for (i = 0; i < 256; i++) {
      for (j = 0; j < 6; j++) { state = (state * 69069 + 12345) % 4294967296; part[j] = int(state / 65536) }
      rate = (part[0] * 2) % 100000
      if (i % 3) rate = rate - rate % 10
      if (i % 50 == 0) rate += 90000
      printf "trade %d %d DI1%s%02d %d.%03d %d\n", part[1] % 256, part[2] % 256, substr(letters, part[3] % 12 + 1, 1), 24 + part[4] % 16, int(rate / 1000), rate % 1000, part[5]
    }
  }' >many.txt
  whole many.txt example-office.txt
done

# ------------------------------------------------------------------
part 'words that are not UTF-8'
run $'\xff'
run price $'1\xe9' 5

part 'forms at the edges'
echo 'the words of the help'
run help
echo 'one line, one contract'
printf 'session 2026-12-30\ntrade 0 1 DI1G27 10 1\n' >text.txt
priced text.txt example-office.txt
echo 'session day without a number'
make 'session day\n'
make 'session 2026-12-30 day\n'
echo 'a bad 257th trade'
{ cat 256.txt; printf 'trade x\n'; } >257.txt
run sheet make 257.txt made.bin
{ cat 256.txt; printf 'trade x 1 DI1G27 10 1\n'; } >257.txt
run sheet make 257.txt made.bin
echo 'a bad second calendar or session, a bad exception of a marked calendar'
office 'calendar rule\ncalendar\n'
make 'session 2026-12-30\nsession x y z\n'
office 'calendar marked every-day.bin\nexception x\n'
echo 'a marked calendar that cannot be read, and a bad line after it'
office 'calendar marked missing.bin\nnothing\n'
echo 'a bad office file and a sheet that is missing or bad'
printf 'nothing\n' >bad.txt
run prices bad.txt missing.bin
run prices bad.txt bad.bin
run prices missing.txt bad.bin
echo 'a line of blanks only, before and after the first line'
office ' \t \n\t\ncalendar rule\n  \nnothing\n'
echo 'a carriage return at the end of the file, in a line, and two of them'
office 'calendar rule\r'
office 'calendar\rrule\n'
office 'calendar rule\r\r\n'
office 'calendar rule\n\r\n\r'
echo 'other blanks are no blanks'
office 'calendar\vrule\n'
office 'calendar\302\240rule\n'
office '\357\273\277calendar rule\n'
echo 'a note after the words of a line'
office 'calendar rule # a note\n'
make 'session 2026-12-30\ntrade 0 1 DI1G27 10 2 # a note\n'
echo 'a rate that is over the most in both senses'
run price 4294968 ten
run price 100 ten
run price 100 2521
run factor 5000
echo 'a file of another folder is named as it is given'
run sheet make ./a-folder/../text.txt ./made.bin
run prices ./bad.txt ./sheet.bin
echo 'the text and the sheet are one file'
cp two.txt same
run sheet make same same
bytes same

# ------------------------------------------------------------------
part 'correct: the example print'
turn='calendar rule\nexception 2027-01-01 closed\nexception 2026-12-31 reserve\nrates table 2026-12-28 10\n'
example="${turn}rate 2026-12-30 10\narbitrate 2026-12-31 10\n"
correct "$example" 2026-12-30 2027-01-04 99925.00

part 'correct: the figures in the tables'
printf 'calendar marked every-day.bin\nrates table 2026-12-01 31\n' >ten.txt
days rate 9831 31 10 >>ten.txt
run correct ten.txt 2026-12-01 2026-12-02 90909.09
run correct ten.txt 2026-12-01 2026-12-03 90909.09
run correct ten.txt 2026-12-01 2026-12-03 99925

part 'rates: messages of the office file, by prices and by correct'
both() {
  office "$1"
  run correct office.txt 2026-12-30 2026-12-30 1
}
both 'rates table 2026-12-28 10\ncalendar rule\n'
both 'rate 2026-12-30 10\ncalendar rule\n'
both 'arbitrate 2026-12-30 10\n'
both 'calendar rule\nrates table 2026-12-28 10\nrates table 2026-12-28 10\n'
both 'calendar rule\nrates table 2026-12-28 10\n\nrates\n'
both 'calendar rule\nrates table 2026-12-28 10\n# a note\nrates x y z w\n'
both 'calendar rule\nrates table 2026-12-28 0\nrates table 2026-12-28 10\n'
both 'calendar rule\nrates\n'
both 'calendar rule\nrates table\n'
both 'calendar rule\nrates table 2026-12-28\n'
both 'calendar rule\nrates table 2026-12-28 10 more\n'
both 'calendar rule\nrates table 2026-12-28 10 # a note\n'
both 'calendar rule\nrates 2026-12-28 10\n'
both 'calendar rule\nrates flat 2026-12-28 10\n'
both 'calendar rule\nrates Table 2026-12-28 10\n'
both 'calendar rule\nrates flat x y\n'
both 'calendar rule\nrates table x y\n'
both 'calendar rule\nrates table 2026-12-32 10\n'
both 'calendar rule\nrates table 2026-12-32 36526\n'
both 'calendar rule\nrates table 1999-12-31 10\n'
both 'calendar rule\nrates table 2100-01-01 10\n'
both 'calendar rule\nrates table 2026-12-28 y\n'
both 'calendar rule\nrates table 2026-12-28 -1\n'
both 'calendar rule\nrates table 2026-12-28 1.0\n'
both 'calendar rule\nrates table 2026-12-28 4294967296\n'
both 'calendar rule\nrates table 2026-12-28 4294967295\n'
both 'calendar rule\nrates table 2026-12-28 36526\n'
both 'calendar rule\nrates table 2026-12-28 36525\n'
both 'calendar rule\nrates table 2026-12-28 0000036525\n'
both 'calendar rule\nrates table 2026-12-28 0\n'
both 'calendar rule\nrates table 2099-12-31 36525\n'
both 'calendar rule\nrates table 2000-01-01 36525\n'
both 'calendar rule\nrate 2026-12-30 10\n'
both 'calendar rule\narbitrate 2026-12-30 10\n'
both 'calendar rule\nrate\nrates table 2026-12-28 10\n'
both 'calendar rule\narbitrate x y z\nrates table 2026-12-28 10\n'
both 'calendar rule\nrates table 2026-12-28 10\nrate\n'
both 'calendar rule\nrates table 2026-12-28 10\nrate 2026-12-30\n'
both 'calendar rule\nrates table 2026-12-28 10\nrate 2026-12-30 10 1\n'
both 'calendar rule\nrates table 2026-12-28 10\narbitrate\n'
both 'calendar rule\nrates table 2026-12-28 10\narbitrate 2026-12-30\n'
both 'calendar rule\nrates table 2026-12-28 10\narbitrate 2026-12-30 10 # a note\n'
both 'calendar rule\nrates table 2026-12-28 10\nrate x y\n'
both 'calendar rule\nrates table 2026-12-28 10\nrate 2027-02-29 10\n'
both 'calendar rule\nrates table 2026-12-28 10\narbitrate x y\n'
both 'calendar rule\nrates table 2026-12-28 10\narbitrate 2027-1-1 10\n'
both 'calendar rule\nrates table 2026-12-28 10\nrate 2026-12-30 y\n'
both 'calendar rule\nrates table 2026-12-28 10\nrate 2026-12-30 10%%\n'
both 'calendar rule\nrates table 2026-12-28 10\nrate 2026-12-30 10.\n'
both 'calendar rule\nrates table 2026-12-28 10\nrate 2026-12-30 .5\n'
both 'calendar rule\nrates table 2026-12-28 10\nrate 2026-12-30 10.1234567\n'
both 'calendar rule\nrates table 2026-12-28 10\nrate 2026-12-30 4294.967296\n'
both 'calendar rule\nrates table 2026-12-28 10\nrate 2026-12-30 4294.967295\n'
both 'calendar rule\nrates table 2026-12-28 10\narbitrate 2026-12-30 -1\n'
both 'calendar rule\nrates table 2026-12-28 10\narbitrate 2026-12-30 10,5\n'
both 'calendar rule\nrates table 2026-12-28 10\narbitrate 2026-12-30 4295\n'
both 'calendar rule\nRates table 2026-12-28 10\n'
both 'calendar rule\nrates table 2026-12-28 10\nRate 2026-12-30 10\n'
both 'calendar rule\nrates table 2026-12-28 10\narbitrates 2026-12-30 10\n'
both 'calendar rule\nrates table 2026-12-28 10\npublish 2026-12-30 10\n'
echo 'a bad line after a bad line'
both 'calendar rule\nrates table 2026-12-28 10\nrate 2026-12-30 x\nnothing\n'
both 'calendar rule\nnothing\nrate 2026-12-30 x\n'
both 'calendar rule\nrates table 2026-12-28 10\ncalendar\nrates\n'
both 'calendar rule\nrates table 2026-12-28 10\nexception 2027-01-01 open\nrates\n'
both 'calendar marked missing.bin\nrates\n'
both 'calendar marked every-day.bin\nrates table 2026-12-28 10\nexception 2027-01-01 closed\n'

part 'rates: refusals'
both "${turn}rate 2026-12-27 10\n"
both "${turn}rate 2026-12-28 10\n"
both "${turn}rate 2027-01-06 10\n"
both "${turn}rate 2027-01-07 10\n"
both "${turn}arbitrate 2026-12-27 10\n"
both "${turn}arbitrate 2026-12-28 10\n"
both "${turn}arbitrate 2027-01-06 10\n"
both "${turn}arbitrate 2027-01-07 10\n"
both "${turn}rate 2000-01-01 10\n"
both "${turn}arbitrate 2099-12-31 10\n"
both 'calendar rule\nrates table 2026-12-30 0\nrate 2026-12-30 10\n'
both 'calendar rule\nrates table 2026-12-30 0\narbitrate 2026-12-30 10\n'
both 'calendar rule\nrates table 2026-12-30 1\nrate 2026-12-30 10\n'
both 'calendar rule\nrates table 2026-12-30 1\nrate 2026-12-31 10\n'
both 'calendar rule\nrates table 2026-12-30 1\narbitrate 2026-12-29 10\n'
both 'calendar rule\nrates table 2000-01-01 36525\nrate 2000-01-01 10\narbitrate 2099-12-31 10\n'
both 'calendar rule\nrates table 2000-01-01 36524\nrate 2000-01-01 10\narbitrate 2099-12-31 10\n'
both 'calendar rule\nrates table 2099-12-31 36525\nrate 2099-12-31 10\n'
both 'calendar rule\nrates table 2099-12-31 36525\nrate 2099-12-30 10\n'
echo 'a day that has a rate, published or arbitrated'
both "${turn}rate 2026-12-30 10\nrate 2026-12-30 10\n"
both "${turn}rate 2026-12-30 10\nrate 2026-12-30 11\n"
both "${turn}rate 2026-12-30 10\narbitrate 2026-12-30 10\n"
both "${turn}arbitrate 2026-12-30 10\nrate 2026-12-30 10\n"
both "${turn}arbitrate 2026-12-30 10\narbitrate 2026-12-30 11\n"
both "${turn}rate 2026-12-30 0\nrate 2026-12-30 10\n"
both "${turn}arbitrate 2026-12-30 0\nrate 2026-12-30 10\n"
both "${turn}rate 2026-12-30 0\narbitrate 2026-12-30 10\n"
both "${turn}arbitrate 2026-12-30 0\narbitrate 2026-12-30 10\n"
echo 'the limit of the rate'
both "${turn}rate 2026-12-30 99.999999\n"
both "${turn}rate 2026-12-30 100\n"
both "${turn}rate 2026-12-30 100.000000\n"
both "${turn}arbitrate 2026-12-30 99.999999\n"
both "${turn}arbitrate 2026-12-30 100\n"
both "${turn}arbitrate 2026-12-30 4294.967295\n"
echo 'the order of the causes'
both "${turn}rate 2026-12-27 100\n"
both "${turn}arbitrate 2026-12-27 100\n"
both "${turn}rate 2026-12-30 10\nrate 2026-12-30 100\n"
both "${turn}rate 2026-12-30 10\narbitrate 2026-12-30 100\n"
both "${turn}arbitrate 2026-12-30 10\nrate 2026-12-30 100\n"
both "${turn}arbitrate 2026-12-30 10\narbitrate 2026-12-30 100\n"
both "${turn}rate 2026-12-27 x\n"
both "${turn}rate 2026-12-30 10\nrate 2026-12-30 x\n"
echo 'days that are no reserve days have rates too'
both "${turn}rate 2027-01-01 10\narbitrate 2027-01-02 10\n"

part 'rates: 16 and 17 arbitrated days'
printf 'calendar marked every-day.bin\nrates table 2026-12-01 20\n' >start.txt
days arbitrate 9831 16 >sixteen.txt
more() { # what follows the sixteen
  printf '\n# after sixteen arbitrated days: %q' "$1"
  { cat start.txt sixteen.txt; printf "$1"; } >office.txt
  run correct office.txt 2026-12-01 2026-12-17 95000
  run prices office.txt sheet.bin
}
more ''
more 'arbitrate 2026-12-17 10\n'
more 'arbitrate 2026-11-30 100\n'
more 'arbitrate 2026-12-21 10\n'
more 'arbitrate 2026-12-16 100\n'
more 'arbitrate 2026-12-01 10\n'
more 'arbitrate 2026-12-17 100\n'
more 'arbitrate 2026-12-17 x\n'
more 'rate 2026-12-16 10\n'
more 'rate 2026-12-17 10\n'
more 'rate 2026-12-17 10\narbitrate 2026-12-17 10\n'
more 'rate 2026-12-17 10\narbitrate 2026-12-18 10\n'
run correct office.txt 2026-12-01 2026-12-17 95000
more 'rate 2026-12-17 10\nrate 2026-12-18 99.999999\nrate 2026-12-19 0\nrate 2026-12-20 0.000001\n'
run correct office.txt 2026-12-01 2026-12-21 95000
run correct office.txt 2026-12-01 2026-12-22 95000

part 'rates: forms that are taken, and the order of the lines'
correct 'calendar rule\r\nrates table 2026-12-28 0000000010\r\n\trate  2026-12-30\t0000000010.000000 \r\n# a note\r\n arbitrate 2026-12-31 9.5\r\nexception 2027-01-01 closed\r\nexception 2026-12-31 reserve' 2026-12-30 2027-01-04 99925.00
correct 'calendar rule\nrates table 2026-12-28 10\narbitrate 2026-12-31 10.12\nexception 2027-01-01 closed\nrate 2026-12-30 10.123456\nexception 2027-01-01 session\n' 2026-12-30 2027-01-04 99925.00
correct 'calendar rule\nexception 2027-01-01 closed\nrates table 2026-12-28 10\narbitrate 2026-12-30 10\nrate 2026-12-31 11.1\n' 2026-12-30 2027-01-04 99925.00

part 'correct: messages and their order'
run correct rule.txt x y z
run correct rule.txt 2026-12-30 y z
run correct rule.txt 2026-12-30 2026-12-29 z
run correct rule.txt 2026-12-30 2026-12-29 0
run correct rule.txt 2026-12-30 2026-12-29 1
run correct rule.txt x 2026-12-29 0
run correct bad.txt x y z
run correct rule.txt 2027-02-29 2027-03-01 1
run correct rule.txt 1999-12-31 2027-03-01 1
run correct rule.txt 2027-02-28 2100-01-01 1
run correct rule.txt 2027-02-28 2027-3-01 1
run correct rule.txt '' '' ''
run correct rule.txt 2026-12-30 '' ''
run correct rule.txt 2026-12-30 2026-12-30 ''
run correct rule.txt ' 2026-12-30' 2026-12-30 1
run correct rule.txt 2027-12-30 2000-01-01 1
run correct rule.txt 2000-01-01 2099-12-31 100000.01
run correct rule.txt 2099-12-31 2000-01-01 100000.01
run correct rule.txt 2000-01-01 2099-12-31 100000
run correct rule.txt 2026-12-30 2027-01-04 1

part 'correct: forms and limits of the price'
printf "$example" >example.txt
for price in 0 0.0 0.00 000 0.01 0.1 0.10 0.02 1 999.99 1000 1000.5 99925 99925.0 99925.00 \
  0000000099925.00 99999.99 100000 100000.0 100000.00 100000.01 100000.1 100001 \
  42949672.95 42949672.96 42949673 4294967295 4294967295.99 4294967296 \
  99925. .5 . 99925.000 99925.001 99,925 '99 925.00' 1.2.3 -1 +1 -0 1e5 ten 99925x ' 1' '1 ' '١' \
  99999999999999999999999999; do
  run correct example.txt 2026-12-30 2027-01-04 "$price"
  run correct example.txt 2026-12-30 2026-12-30 "$price"
done

part 'correct: gaps without reserve days, and with one'
run correct rule.txt 2026-12-30 2026-12-30 99925
run correct example.txt 2026-12-30 2026-12-30 99925
run correct example.txt 2000-01-01 2000-01-01 0.01
run correct example.txt 2099-12-31 2099-12-31 100000
run correct rule.txt 2027-01-02 2027-01-04 99925
run correct example.txt 2027-01-01 2027-01-04 99925
run correct example.txt 2027-01-01 2027-01-05 99925
run correct example.txt 2026-12-30 2026-12-31 99925
run correct example.txt 2026-12-31 2027-01-01 99925
run correct example.txt 2026-12-31 2027-01-04 99925
run correct example.txt 2026-12-31 2027-01-02 99925
run correct example.txt 2026-12-30 2026-12-29 99925

part 'correct: a missing rate'
run correct example.txt 2026-12-29 2027-01-04 99925
run correct example.txt 2026-12-30 2027-01-05 99925
run correct example.txt 2026-12-24 2027-01-15 99925
correct "${turn}rate 2026-12-29 10\nrate 2026-12-31 10\n" 2026-12-29 2027-01-04 99925
correct "${turn}rate 2026-12-29 10\nrate 2026-12-30 10\n" 2026-12-29 2027-01-04 99925
correct "${turn}rate 2026-12-30 10\nrate 2027-01-01 10\n" 2026-12-30 2027-01-04 99925
correct "${turn}" 2026-12-30 2027-01-04 99925
correct 'calendar rule\nrates table 2026-12-30 0\n' 2026-12-30 2027-01-04 99925
correct 'calendar rule\nrates table 2026-12-30 0\n' 2026-12-30 2026-12-30 99925
echo 'a rate on a day that is no reserve day is not asked for'
correct "${turn}rate 2026-12-30 10\nrate 2026-12-31 11\nrate 2027-01-01 99\narbitrate 2027-01-02 98\n" 2026-12-30 2027-01-04 99925
echo 'a reserve day without session in the middle, at the start and at the end'
correct "${turn}rate 2026-12-29 9\nrate 2026-12-30 10\nrate 2026-12-31 11\nrate 2027-01-04 12\n" 2026-12-29 2027-01-05 99925
run correct office.txt 2026-12-31 2027-01-05 99925
run correct office.txt 2026-12-29 2027-01-01 99925
echo 'rates of nothing and of the most'
correct "${turn}rate 2026-12-30 0\narbitrate 2026-12-31 99.999999\n" 2026-12-30 2027-01-04 100000
correct "${turn}arbitrate 2026-12-30 99.999999\nrate 2026-12-31 0\n" 2026-12-30 2027-01-04 100000
correct "${turn}rate 2026-12-30 0.000001\narbitrate 2026-12-31 0\n" 2026-12-30 2027-01-04 0.01

part 'correct: a half of a centavo exactly, and just under and over one'
# The factors are 1.00050000, 1.00049999 and 1.00050001.
for rate in 13.424633 13.424346 13.424918; do
  correct "${turn}rate 2026-12-30 $rate\n" 2026-12-30 2026-12-31 10
  run correct office.txt 2026-12-30 2026-12-31 30
  run correct office.txt 2026-12-30 2026-12-31 99990
done

part 'correct: the ends of the horizon'
printf 'calendar marked every-day.bin\nrates table 2026-12-28 4\n' >ends.txt
days rate 9858 4 >>ends.txt
run correct ends.txt 2026-12-28 2027-01-01 99925
run correct ends.txt 2026-12-27 2027-01-01 99925
run correct ends.txt 2026-12-28 2027-01-02 99925
run correct ends.txt 2026-12-31 2027-01-01 99925
run correct ends.txt 2026-12-27 2026-12-28 99925
run correct ends.txt 2027-01-01 2027-01-02 99925
printf 'calendar marked every-day.bin\nrates table 2000-01-01 36525\nrate 2000-01-01 10\nrate 2099-12-30 11\narbitrate 2099-12-31 12\n' >whole.txt
run correct whole.txt 2000-01-01 2000-01-02 99925
run correct whole.txt 2000-01-01 2000-01-03 99925
run correct whole.txt 2099-12-30 2099-12-31 99925
run correct whole.txt 2099-12-29 2099-12-31 99925

part 'correct: 252 and 253 reserve days'
for rate in '' 0 0.000001 14.9 99.999999; do
  printf 'calendar marked every-day.bin\nrates table 2026-01-01 254\n' >long.txt
  days rate 9497 254 $rate >>long.txt
  for price in 0.01 0.5 91234.56 100000; do
    run correct long.txt 2026-01-01 2026-09-10 $price
  done
  run correct long.txt 2026-01-01 2026-09-11 91234.56
  run correct long.txt 2026-01-02 2026-09-11 91234.56
done
echo 'too many days, and a rate is missing too'
sed -i '/2026-03-01/d' long.txt
run correct long.txt 2026-01-01 2026-09-11 91234.56
run correct long.txt 2026-01-01 2026-09-10 91234.56
run correct every-day.txt 2026-01-01 2026-09-11 91234.56
run correct every-day.txt 2026-01-01 2026-09-10 91234.56
echo 'the closed days do not count'
printf 'calendar rule\nrates table 2026-01-01 400\n' >weeks.txt
days rate 9497 400 >>weeks.txt
for to in 2026-12-17 2026-12-18 2026-12-19 2026-12-20 2026-12-21 2026-12-22 2026-12-23; do
  run correct weeks.txt 2026-01-01 $to 91234.56
done

part 'correct: a marked calendar'
# From 2026-12-30: session, reserve, closed, other bytes, reserve, session on 2027-01-05.
printf 'calendar marked marked.bin\nrates table 2026-12-30 7\nrate 2026-12-30 10\narbitrate 2026-12-31 11\nrate 2027-01-04 12\nrate 2027-01-05 13\n' >office.txt
run correct office.txt 2026-12-30 2027-01-05 99925
run correct office.txt 2026-12-30 2027-01-04 99925
run correct office.txt 2026-12-30 2027-01-06 99925
run correct office.txt 2026-12-30 2027-12-31 99925
run correct office.txt 2027-01-01 2027-01-04 99925
correct 'calendar marked empty.bin\n' 2000-01-01 2099-12-31 99925

part 'correct: FROM is no session, TO is no session'
run correct example.txt 2026-12-31 2027-01-04 99925
run correct example.txt 2027-01-01 2027-01-04 99925
run correct example.txt 2026-12-30 2027-01-01 99925
run correct example.txt 2026-12-30 2027-01-03 99925

part 'correct: a file of another folder is named as it is given'
run correct ./bad.txt 2026-12-30 2027-01-04 99925
printf 'calendar rule\nrate\n' >a-folder/office.txt
run correct a-folder/office.txt x y z
run correct ./a-folder/../example.txt 2026-12-30 2027-01-04 99925

part 'prices: an office file with rates'
whole two.txt example.txt
{ cat example-office.txt; printf 'rates table 2026-12-01 60\nrate 2026-12-30 10\narbitrate 2027-01-04 11\n'; } >rates-office.txt
whole sheet.txt rates-office.txt
{ cat every-day.txt; printf 'rates table 2026-12-01 60\nrate 2026-12-30 10\n'; } >rates-marked.txt
priced sheet.txt rates-marked.txt

part 'correct: many rates'
printf 'calendar rule\nexception 2026-12-25 closed\nexception 2026-12-31 reserve\nexception 2027-01-01 closed\nrates table 2026-12-01 60\n' >many-rates.txt
days rate 9831 20 >>many-rates.txt
days arbitrate 9851 16 >>many-rates.txt
days rate 9867 24 >>many-rates.txt
for price in 0.01 1.23 97.66 9876.54 54321.09 98765.43 99999.99; do
  for to in 2026-12-02 2026-12-08 2026-12-28 2027-01-04 2027-01-30; do
    run correct many-rates.txt 2026-12-01 $to $price
  done
done

# ------------------------------------------------------------------
# A run of a journal of the given text (as for printf); then the options.
journal() {
  printf '\n# book.journal: %q' "$1"
  printf "$1" >book.journal
  run run "${@:2}" book.journal
}

base='calendar rule\nexception 2027-01-01 closed\nrates table 2026-12-28 10\n'
book="${base}book 1 2026-12-30\n"
ready="${book}enter 101 7 3\nenter 102 7 3\nlist DI1F27\n"

part 'run: commands'
printf "$ready" >ready.journal
run run
run run --json
run run --strict
run run --csv
run run --csv ready.journal
run run ready.journal more
run run ready.journal --json
run run --json --json ready.journal
run run --strict --strict ready.journal
run run --csv . --csv . ready.journal
run run --text ready.journal
run run -s ready.journal
run run --json --strict ready.journal
run run --strict --json ready.journal
run Run ready.journal
run run missing.journal
run run a-folder
run run not-utf8.txt
run run --csv no-folder ready.journal
run run --csv no-folder missing.journal
run run --csv no-folder office.txt

part 'run: the example journals'
cp "$here"/../crates/settle/data/*.journal "$here"/../crates/settle/data/*.bin .
for name in example edges fortnight; do
  run run $name.journal
  run run --json $name.journal
  run run --strict $name.journal
  mkdir csv-$name
  run run --json --csv csv-$name $name.journal
  tables csv-$name
done

part 'run: messages about the office lines'
journal ''
journal '\n# only a note\n'
journal 'book 1 2026-12-30\n'
journal 'open\n'
journal 'nothing\n'
journal 'calendar\n'
journal 'calendar marked missing.bin\nbook 1 2026-12-30\n'
journal 'calendar rule\ncalendar rule\n'
journal 'calendar marked every-day.bin\nexception 2026-12-30 closed\n'
journal 'calendar rule\nexception 2026-12-30\n'
journal 'calendar rule\nexception 2026-12-32 closed\n'
journal 'calendar rule\nexception 2026-12-31 open\n'
journal "${base}rates table 2026-12-28 10\n"
journal 'calendar rule\nrates table x 1\n'
journal 'calendar rule\nrates table 2026-12-28 x\n'
journal 'calendar rule\nrates table 2026-12-28 36526\n'
journal 'calendar rule\nrates\n'
journal 'calendar rule\nrate 2026-12-28 10\n'
journal 'calendar rule\narbitrate 2026-12-28 10\n'
journal "${base}rate 2026-12-28\n"
journal "${base}rate 2026-12-28 x\n"
journal "${base}arbitrate 2026-12-28 x\n"
journal "${base}arbitrate 2026-12-28\n"
journal "${base}rate 2027-01-07 10\n"
journal "${base}rate 2026-12-28 10\narbitrate 2026-12-28 10\n"
journal "${base}rate 2026-12-28 100\n"
journal "${base}nothing\n"
journal "${base}Book 1 2026-12-30\n"

part 'run: messages about the book line'
for call in 'enter 1 2 3' 'list DI1F27' 'publish 2026-12-30 10' open 'trade 0 1 DI1F27 10 1' \
  'import x' 'mark DI1F27 1' close pay write-off 'position 0 DI1F27' 'balance 0' 'trade x' 'open 1'; do
  journal "${base}$call\nbook 1 2026-12-30\n"
done
journal "${base}"
journal "${base}\n# a note\n\n"
journal 'calendar rule'
journal "${base}book\n"
journal "${base}book 1\n"
journal "${base}book 1 2026-12-30 1\n"
journal "${base}book x y\n"
journal "${base}book 4294967296 2026-12-30\n"
journal "${base}book -1 2026-12-30\n"
journal "${base}book 1 y\n"
journal "${base}book 1 2026-12-32\n"
journal "${base}book 1 2100-01-01\n"
journal "${base}book 0 2000-01-01\n"
journal "${base}book 4294967295 2099-12-31\n"
journal "${base}book 007 2026-12-30\nopen\n"
journal "${book}book 1 2026-12-30\n"
journal "${book}open\nbook\n"
journal "${book}calendar rule\n"
journal "${book}calendar\n"
journal "${book}exception 2026-12-31 closed\n"
journal "${book}rates table 2026-12-28 10\n"
journal "${book}rate 2026-12-30 10\n"
journal "${book}open\nrate x y\n"

part 'run: messages about calls'
for call in enter 'enter 1' 'enter 1 2' 'enter 1 2 3 4' 'enter x y z' 'enter 1 y z' 'enter 1 2 z' \
  'enter 1 2 4294967296' 'enter -1 2 3' 'enter 1.0 2 3' \
  list 'list DI1F27 DI1G27' 'list di1f27' 'list DI1A27' 'list F27' 'list 324' \
  publish 'publish 2026-12-30' 'publish 2026-12-30 10 1 1' 'publish x y z' 'publish 2026-12-30 y z' \
  'publish 2026-12-30 10 z' 'publish 2026-12-30 10 4294967296' 'publish 2026-12-30 10.1234567' \
  'publish 2026-12-30 10%%' 'publish 2027-02-29 10' 'publish 2026-12-30 4294.967296' \
  arbitrate 'arbitrate 2026-12-30' 'arbitrate 2026-12-30 10 1' 'arbitrate x y' \
  'arbitrate 2026-12-30 .5' 'arbitrate 2026-12-30 10,5' \
  'open 2026-12-30' 'open # a note' \
  trade 'trade 0 1 DI1F27 10' 'trade 0 1 DI1F27 10 1 1' 'trade a b c d e' 'trade 0 b c d e' \
  'trade 0 1 c d e' 'trade 0 1 DI1F27 d e' 'trade 0 1 DI1F27 10 e' 'trade 256 1 DI1F27 10 1' \
  'trade 0 256 DI1F27 10 1' 'trade 0 1 DI1F27 10.0000 1' 'trade 0 1 DI1F27 10 4294967296' \
  'trade 0 1 DI1F27 4294967.296 1' 'trade 0 1 DI1F27 10 1.5' 'trade 00000000000 1 DI1F27 10 1' \
  import 'import sheet.bin sheet.bin' 'import missing.bin' 'import a-folder' 'import ./missing.bin' \
  mark 'mark DI1F27' 'mark DI1F27 99925.00 1' 'mark x y' 'mark DI1F27 99925.000' 'mark DI1F27 x' \
  'mark DI1F27 42949672.96' 'mark DI1F27 -1' \
  'close 2026-12-30' 'pay 1' 'write-off 1' 'writeoff' \
  position 'position 0' 'position 0 DI1F27 1' 'position x y' 'position 256 DI1F27' 'position 0 y' \
  balance 'balance 0 1' 'balance x' 'balance 256' 'balance 1.0' \
  nothing 'Open' 'open, close' 'session 2026-12-30'; do
  journal "${ready}open\n$call\nnothing\n"
done
echo 'bad text comes before every answer'
journal "${ready}open\nopen\nclose x\n" --strict
journal "${ready}close\nmissing\n" --json
mkdir -p csv-bad
journal "${ready}open\nx\n" --csv csv-bad
ls csv-bad

part 'run: forms that are taken'
journal "$book"
journal "calendar rule\nbook 1 2026-12-30"
journal "calendar rule\r\nbook 1 2026-12-30\r\n\r\n# a note\r\n enter\t1  2\t\t3 \r\nopen\r\n"
journal "${book}# a note\n\n  # another\nenter 1 2 3\n\nenter 001 02 0000000004\nbalance 000\n"
journal "${book}enter 4294967295 4294967295 4294967295\nenter 0 0 0\nlist DI1F00\nlist DI1Z99\n"
journal "${ready}open\ntrade 00 0000000001 DI1F27 0010.0 0010\nmark DI1F27 0099925.0\n"
journal "calendar\302\240rule\nbook\t1\302\2402026-12-30\nenter\302\2401\342\200\2032 3\n"

part 'run: refusals, one by one'
call() { # calls after the ready book
  journal "${ready}$1"
}
call 'open\ntrade 2 1 DI1F27 10 1\ntrade 0 2 DI1F27 10 1\ntrade 0 1 DI1G27 10 1\ntrade 0 255 DI1F27 10 1\n'
call 'open\nmark DI1G27 1\nmark DI1F00 0\nposition 2 DI1F27\nposition 0 DI1G27\nbalance 2\nbalance 255\n'
call 'open\nmark DI1F27 1\nclose\nopen\npay\nmark DI1F27 1\npublish 2026-12-30 10\nclose\nopen\npay\ntrade 0 1 DI1F27 10 1\nmark DI1F27 1\n'
call 'open\ntrade 0 0 DI1F27 10 0\ntrade 0 1 DI1F27 100 0\ntrade 0 1 DI1F27 100 20001\ntrade 0 1 DI1F27 100 20000\n'
call 'list DI1H27\nlist DI1J27\nlist DI1Z27\nlist DI1F28\nopen\ntrade 0 1 DI1H27 0.001 1\ntrade 0 1 DI1J27 0.005 1\ntrade 0 1 DI1J27 0.004 1\ntrade 0 1 DI1Z27 0.005 1\ntrade 0 1 DI1Z27 0.006 1\ntrade 0 1 DI1F28 0.020 1\ntrade 0 1 DI1F28 0.015 1\n'
call 'list DI1F37\nopen\ntrade 0 1 DI1F37 10 1\ntrade 0 1 DI1F37 10.001 1\ntrade 1 0 DI1F37 100 1\n'
call 'open\nmark DI1F27 0\nmark DI1F27 0.01\nmark DI1F27 100000\nmark DI1F27 100000.01\nmark DI1F27 42949672.95\n'
call 'open\nopen\nopen\n'
call 'open\nmark DI1F27 99925\nclose\nopen\nmark DI1F27 99925\nclose\nclose\npay\nclose\npublish 2026-12-30 10\nclose\n'
call 'list DI1H27\nlist DI1G27\nopen\nclose\nmark DI1F27 99925\nclose\nmark DI1G27 99925\nclose\nmark DI1H27 99925\nclose\n'
call 'open\nmark DI1F27 99925\nclose\nopen\npay\nmark DI1F27 99925\nclose\narbitrate 2026-12-30 10\nclose\nopen\npay\nclose\npublish 2026-12-31 10\nclose\n'
call 'open\npay\nmark DI1F27 99925\nclose\npay\nopen\npay\npay\n'
call 'enter 101 7 3\nlist DI1F27\nlist DI1Z26\nlist DI1F00\nlist DI1Z99\n'
call 'publish 2026-12-27 10\npublish 2027-01-07 10\narbitrate 2026-12-27 10\narbitrate 2027-01-07 100\n'
call 'publish 2026-12-30 10\npublish 2026-12-30 100 2\narbitrate 2026-12-30 100\narbitrate 2026-12-31 10\npublish 2026-12-31 10 2\n'
call 'publish 2026-12-30 100 2\npublish 2026-12-30 99.999999 2\npublish 2026-12-30 10 0\npublish 2026-12-30 99.999999 1\narbitrate 2026-12-31 100\narbitrate 2026-12-31 99.999999\n'

part 'run: a book without rates'
journal 'calendar rule\nbook 1 2026-12-30\npublish 2026-12-30 10\narbitrate 2026-12-30 10\nopen\nclose\nopen\npay\nclose\n'

part 'run: nothing is held'
call 'trade 0 1 DI1F27 10 1\nimport sheet.bin\nmark DI1F27 0\nclose\npay\nwrite-off\n'
call 'open\npay\nwrite-off\nmark DI1F27 1\nclose\ntrade 9 9 DI1G27 100 0\nimport sheet.bin\nmark DI1G27 0\nclose\nwrite-off\nwrite-off\npay\n'
printf "${ready}close\nopen\nmark DI1F27 1\nclose\npay\nwrite-off\npay\n" >held.journal
run run --json held.journal
run run --strict held.journal
printf "${ready}close\npay\nwrite-off\n" >held.journal
run run --strict held.journal

part 'run: a slip that is written off, and one that is left'
call 'open\nmark DI1F27 1\nclose\nwrite-off\nopen\nmark DI1F27 1\npublish 2026-12-30 10\nclose\npay\n'
call 'open\ntrade 0 1 DI1F27 10 10\nmark DI1F27 99925\nclose\n'
call 'open\ntrade 0 1 DI1F27 10 10\nmark DI1F27 99925\nclose\nopen\n'

part 'run: accounts and months that are not there'
journal "${book}open\nclose\nopen\npay\npublish 2026-12-30 10\nclose\n"
journal "${book}enter 1 1 1\nopen\nclose\n"
journal "${book}list DI1F27\nopen\nmark DI1F27 1\nclose\n"
journal "${book}list DI1F27\nopen\nmark DI1F27 1\nclose\n" --json
journal "${book}enter 1 1 1\nopen\nclose\n" --json
journal "${book}open\nclose\n" --json
echo 'they come after a close'
call 'open\ntrade 0 1 DI1F27 10 10\nmark DI1F27 99925\nclose\nenter 3 3 3\nlist DI1G27\nposition 2 DI1F27\nposition 0 DI1G27\nbalance 2\n'
call 'open\ntrade 0 1 DI1F27 10 10\nmark DI1F27 99925\nclose\nenter 3 3 3\nlist DI1G27\npublish 2026-12-30 10\nopen\npay\ntrade 2 0 DI1G27 10 5\ntrade 2 1 DI1F27 10 5\nmark DI1F27 99962\nmark DI1G27 99200\nclose\n'

part 'run: 32 accounts, 16 months'
{
  printf "$book"
  for i in {1..33}; do echo "enter $i 1 1"; done
  echo 'enter 1 1 1'
  for year in 27 28; do for letter in F G H J K M N Q U; do echo "list DI1$letter$year"; done; done
  echo 'list DI1F27'
  echo 'list DI1F00'
  printf 'open\ntrade 31 0 DI1N28 10 1\ntrade 32 0 DI1N28 10 1\nposition 31 DI1N28\nclose\n'
} >table.journal
run run table.journal

part 'run: an expiry on the first session, and before the start'
journal "calendar rule\nrates table 2027-01-01 10\nbook 1 2027-01-01\nlist DI1F27\nlist DI1G27\n"
journal "calendar rule\nexception 2027-01-01 closed\nrates table 2027-01-01 10\nbook 1 2027-01-01\nenter 1 1 1\nenter 2 2 2\nlist DI1F27\nopen\ntrade 0 1 DI1F27 10 1\nmark DI1F27 1\nclose\nlist DI1G27\n"
journal "calendar rule\nbook 1 2027-01-02\nlist DI1F27\nlist DI1G27\nopen\nlist DI1G27\n"

part 'run: the next session'
# From 2026-12-30 on: a session, then 59, 60 and 61 days to the next ones.
{ repeat 9860 '\0'; printf '\2'; repeat 58 '\1'; printf '\2'; repeat 59 '\0'; printf '\2'; repeat 60 '\1'; printf '\2'; } >gaps.bin
for start in 2026-12-30 2026-12-31 2027-01-01 2026-10-31 2026-11-01; do
  {
    printf 'calendar marked gaps.bin\nrates table 2026-12-01 400\n'
    days rate 9860 150
    printf 'book 1 %s\nenter 1 1 1\nenter 2 2 2\nlist DI1G27\nlist DI1J27\nlist DI1M27\n' $start
    printf 'open\ntrade 0 1 DI1G27 10 7\ntrade 1 0 DI1J27 10 100\nmark DI1G27 99000\nmark DI1J27 98000\nmark DI1M27 97000\nclose\n'
    printf 'open\npay\nmark DI1J27 98765.43\nmark DI1M27 97500\nclose\nopen\npay\nmark DI1M27 98500\nclose\nopen\npay\n'
  } >gaps.journal
  printf '\n# gaps.journal: from %s on' $start
  run run gaps.journal
done
journal 'calendar rule\nbook 1 2099-12-31\nopen\nclose\nopen\npay\nwrite-off\n'
journal 'calendar rule\nbook 1 2099-12-30\nopen\nclose\nopen\npay\n'
journal 'calendar marked empty.bin\nbook 1 2026-12-30\nlist DI1F27\nopen\nclose\n'

part 'run: sheets'
sheet_of() { # name, text of a sheet (as for printf)
  printf "$2" >text.txt
  "$program" sheet make text.txt "$1" >/dev/null
}
sheet_of day.bin 'session 2026-12-30\ntrade 0 1 DI1F27 10 10\ntrade 1 0 DI1F27 10.001 4\n'
sheet_of one.bin 'session 2026-12-30\ntrade 0 1 DI1F27 10 10\n'
sheet_of no-lines.bin 'session 2026-12-30\n'
sheet_of other-day.bin 'session 2026-12-31\ntrade 0 1 DI1F27 10 10\n'
sheet_of unlisted.bin 'session 2026-12-30\ntrade 0 1 DI1F27 10 10\ntrade 0 1 DI1G27 10 10\ntrade 0 1 DI1F27 10 10\n'
sheet_of limit.bin 'session 2026-12-30\ntrade 0 1 DI1F27 10 20001\n'
sheet_of stranger.bin 'session 2026-12-30\ntrade 0 1 DI1F27 10 1\ntrade 0 1 DI1F27 10 2\ntrade 255 0 DI1F27 10 3\n'
printf '\001' >short.bin
printf '\001\001\204\046' >count.bin
printf '\001\000\204\046' >length.bin
printf "\\003\\000\\204\\046\\000\\001\\002\\003\\004\\005$term$term$other" >code.bin
printf "\\001\\000\\205\\046\\000\\001$other" >day-and-code.bin
imports='open\n'
for name in day one no-lines other-day unlisted limit stranger short count length code day-and-code; do
  imports="${imports}import $name.bin\n"
done
call "$imports"
journal "${ready}$imports" --json
for name in other-day unlisted code; do
  journal "${ready}open\nimport day.bin\nimport $name.bin\nposition 0 DI1F27\n" --strict
  journal "${ready}open\nimport day.bin\nimport $name.bin\nposition 0 DI1F27\n" --strict --json
done
mkdir -p folder/sheets
cp day.bin folder/sheets
printf "${ready}open\nimport sheets/day.bin\n" >folder/book.journal
run run folder/book.journal
run run ./folder/../folder/book.journal
printf "${ready}open\nimport day.bin\n" >folder/book.journal
run run folder/book.journal
printf "${ready}open\nimport ../day.bin\n" >folder/book.journal
run run folder/book.journal
printf "calendar marked marked.bin\nbook 1 2026-12-30\nopen\n" >folder/book.journal
run run folder/book.journal

part 'run: 256 trades in a session'
{ printf 'session 2026-12-30\n'; for i in {1..255}; do echo "trade $((i % 2)) $(((i + 1) % 2)) DI1F27 10.0$((i % 90 + 10)) $i"; done; } >text.txt
"$program" sheet make text.txt 255.bin >/dev/null
call 'open\nimport 255.bin\nimport day.bin\ntrade 0 1 DI1F27 10 1\nmark DI1F27 99925\nclose\nopen\npay\ntrade 0 1 DI1F27 10 1\n'

part 'run: 500,000 contracts'
{ printf 'session 2026-12-30\n'; for i in {1..25}; do echo 'trade 0 1 DI1F27 10 20000'; done; } >text.txt
"$program" sheet make text.txt big.bin >/dev/null
call 'enter 3 3 3\nopen\nimport big.bin\ntrade 0 1 DI1F27 10 1\ntrade 0 2 DI1F27 10 1\ntrade 2 1 DI1F27 10 1\ntrade 1 0 DI1F27 10 1\ntrade 0 2 DI1F27 10 1\nposition 0 DI1F27\nposition 1 DI1F27\nposition 2 DI1F27\nmark DI1F27 0.01\nclose\nbalance 0\n'

part 'run: day trades'
call 'open\ntrade 0 1 DI1F27 10 10\ntrade 0 1 DI1F27 11 10\ntrade 1 0 DI1F27 9 15\nmark DI1F27 99925\nclose\n'
call 'enter 3 3 3\nopen\ntrade 0 1 DI1F27 10 10\ntrade 1 2 DI1F27 10.5 4\ntrade 1 2 DI1F27 10.2 4\ntrade 2 0 DI1F27 10.1 8\nmark DI1F27 99925\nclose\n'

part 'run: a corrected price at a half of a centavo, and just under and over one'
for rate in 13.424633 13.424346 13.424918; do
  call "open\ntrade 0 1 DI1F27 10 1\nmark DI1F27 10\nclose\npublish 2026-12-30 $rate\nopen\npay\nmark DI1F27 30\nclose\npublish 2026-12-31 $rate\nopen\npay\nclose\n"
done

part 'run: numbers of many digits'
journal "${base}book 4294967295 2026-12-30\nenter 4294967295 4294967295 4294967295\nenter 0 0 0\nlist DI1F27\nopen\nimport big.bin\nmark DI1F27 0.01\nclose\nwrite-off\n"

part 'run: positions and counts of one'
call 'open\ntrade 0 1 DI1F27 10 1\nposition 0 DI1F27\nposition 1 DI1F27\nimport one.bin\ntrade 1 0 DI1F27 10 10\ntrade 1 0 DI1F27 10 1\nposition 0 DI1F27\n'

part 'run: strict'
call_strict() { journal "${ready}$1" --strict; }
call_strict 'open\nopen\nopen\n'
call_strict 'open\nclose\nmark DI1F27 1\n'
call_strict 'open\nmark DI1F27 1\nclose\nopen\npay\nmark DI1F27 1\nclose\npublish 2026-12-30 10\n'
call_strict 'open\nmark DI1F27 1\nclose\nopen\npay\nmark DI1F27 1\npublish 2026-12-30 10\nclose\n'
call_strict 'balance 9\n'
call_strict 'publish 2026-12-30 100\n'
journal "${ready}open\nopen\nopen\n" --strict --json
journal "${ready}open\nclose\nopen\n" --strict --json

part 'run: tables'
mkdir csv
journal "${ready}open\nimport day.bin\ntrade 0 1 DI1F27 0.5 3\nmark DI1F27 99925\nclose\nenter 3 3 3\nlist DI1G27\npublish 2026-12-30 10\nopen\npay\ntrade 2 0 DI1G27 99.999 5\nmark DI1F27 99962\nmark DI1G27 99200\nclose\n" --csv csv
tables csv
journal "$book" --csv csv/ --json
tables csv
journal "${ready}open\nmark DI1F27 1\nclose\nopen\nclose\nopen\n" --strict --csv ./csv
tables csv
echo 'a table that cannot be written'
mkdir stuck stuck/balances.csv
journal "$ready" --csv stuck
ls stuck | grep -c '\.new$'
touch plain-file
journal "$ready" --csv plain-file
