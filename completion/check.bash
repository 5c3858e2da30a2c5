#!/bin/bash
# Asks the completion for what may stand at the end of some lines, and compares it with what the words of docs/COMMANDS.md say.
# Prints each row that differs, and ends with 1 where one does. No gate runs it.
#
#     completion/check.bash
here=$(dirname "$(readlink -f "$0")")
. "$here/isdbt.bash"
wrong=0
options=

compopt() { options=$2; }

# Parts a line as readline does: at blanks, and around each run of the characters that part words.
part() {
    local rest=$1 piece
    COMP_WORDS=()
    while [[ $rest =~ ^[[:blank:]]*([:=@\<\>]+|[^[:blank:]:=@\<\>]+) ]]; do
        piece=${BASH_REMATCH[1]}
        COMP_WORDS+=("$piece")
        rest=${rest:${#BASH_REMATCH[0]}}
    done
    [[ $1 == *[[:blank:]] ]] && COMP_WORDS+=("")
    COMP_LINE=$1 COMP_POINT=${#1} COMP_CWORD=$((${#COMP_WORDS[@]} - 1))
}

# row LINE OFFERS: the offers as readline is given them; `files`, or `+` behind them where no blank follows.
row() {
    local told
    part "$1"
    options=
    _isdbt
    told=${COMPREPLY[*]}
    case $options in
        default) told=files ;;
        nospace) told="$told +" ;;
    esac
    [[ $told == "$2" ]] && return
    echo "line:  $1|"
    echo "wants: $2"
    echo "told:  $told"
    wrong=1
}

COMP_WORDBREAKS=$' \t\n"\'@><=;|&(:'
P=A:13:qpsk:1/2:0
row "isdbt " "remux code receive show sample --help --version"
row "isdbt re" "remux receive"
row "isdbt --v" "--version"
row "isdbt remux " "1 2 3"
row "isdbt remux 2 " "1/4 1/8 1/16 1/32"
row "isdbt code 2 1/1" "1/16"
row "isdbt remux 2 1/8 " "A: +"
row "isdbt remux 2 1/8 A" "A: +"
row "isdbt remux 2 1/8 A:" "1: 2: 3: 4: 5: 6: 7: 8: 9: 10: 11: 12: 13:"
row "isdbt remux 2 1/8 A:1" "1: 10: 11: 12: 13:"
row "isdbt remux 2 1/8 A:2:" "qpsk: 16qam: 64qam:"
row "isdbt remux 2 1/8 A:2:64" "64qam: +"
row "isdbt remux 2 1/8 A:2:64qam:3" "3/4: +"
row "isdbt remux 1 1/8 A:13:64qam:3/4:" "0 4 8 16"
row "isdbt remux 2 1/8 A:2:64qam:3/4:" "0, 2, 4, 8,"
row "isdbt remux 3 1/8 A:1:64qam:3/4:" "0, 1, 2, 4, 0:partial, 1:partial, 2:partial, 4:partial,"
row "isdbt remux 3 1/8 A:1:64qam:3/4:2:" "partial, +"
row "isdbt remux 3 1/8 A:2:64qam:3/4:2:" ""
row "isdbt remux 3 1/8 A:9:64qam:3/4:2," "2,B: +"
row "isdbt remux 3 1/8 A:9:64qam:3/4:2,B:" "1: 2: 3: 4:"
row "isdbt remux 3 1/8 A:9:64qam:3/4:2,B:1:qpsk:1/2:0,C:" "3: +"
row "isdbt remux 3 1/8 A:9:64qam:3/4:2,B:1:qpsk:1/2:0,C:3:qpsk:1/2:" "0 1 2 4"
row "isdbt remux 3 1/8 A:9:64qam:3/4:2,B:4:qpsk:1/2:" "0 1 2 4"
row "isdbt remux 3 1/8 $P," ""
row "isdbt remux 3 1/8 A:0:qpsk:1/2:0," ""
row "isdbt remux 1 1/4 $P " "A= @"
row "isdbt remux 1 1/4 $P A" "A= +"
row "isdbt remux 1 1/4 $P A=" "files"
row "isdbt remux 1 1/4 $P A=ex" "files"
row "isdbt remux 1 1/4 $P A=x " ""
row "isdbt remux 3 1/8 A:9:64qam:3/4:2,B:4:qpsk:1/2:0 A=x " "B= +"
row "isdbt remux 3 1/8 A:9:64qam:3/4:2,B:4:qpsk:1/2:0 A=x B=" "files"
row "isdbt remux 3 1/8 A:9:64qam:3/4:2,B:4:qpsk:1/2:0 A=x B=y " ""
row "isdbt remux 1 1/4 $P @4 " "1 2 3 A:"
row "isdbt remux 1 1/4 $P @4" ""
row "isdbt remux 1 1/4 $P @4 2 " "1/4 1/8 1/16 1/32"
row "isdbt remux 1 1/4 $P @4 2 1/8 " "A: +"
row "isdbt remux 1 1/4 $P @4 2 1/8 A:" "13: +"
row "isdbt remux 1 1/4 $P @4 2 1/8 A:13:qpsk:1/2:" "0 2 4 8"
row "isdbt remux 1 1/4 $P @4 A:13:qpsk:1/2:" "0 4 8 16"
row "isdbt remux 1 1/4 A:1:qpsk:1/2:0,B:12:qpsk:1/2:0 @4 A:" "1: 2: 3: 4: 5: 6: 7: 8: 9: 10: 11: 12:"
row "isdbt remux 1 1/4 A:1:qpsk:1/2:0,B:12:qpsk:1/2:0 @4 A:5:qpsk:1/2:0,B:" "8: +"
row "isdbt remux 1 1/4 $P @1 $P @2 $P @3 $P @4 $P @5 $P @6 $P " "A= @"
row "isdbt remux 1 1/4 $P @1 $P @2 $P @3 $P @4 $P @5 $P @6 $P @7 $P " "A= +"
row "isdbt code 1 1/4 $P " "IN= @"
row "isdbt code 1 1/4 $P IN=x " "v2"
row "isdbt code 1 1/4 $P IN=x v2 " ""
row "isdbt receive " "1 2 3 IN="
row "isdbt receive IN=ab" "files"
row "isdbt receive 1 1/4 " "IN= +"
row "isdbt receive 1 1/4 IN=x " "partial fix"
row "isdbt receive IN=x p" "partial"
row "isdbt receive IN=x partial " "fix"
row "isdbt receive IN=x fix " ""
row "isdbt receive IN=x f > " "files"
row "isdbt receive IN=x >o" "files"
row "isdbt receive IN=x > out " "partial fix"
row "isdbt show " "bts cells"
row "isdbt show bts " "1 2 3"
row "isdbt show bts 1 1/4 " "IN= +"
row "isdbt show bts 1 1/4 IN=x " ""
row "isdbt show cells " "1 2 3 IN="
row "isdbt show cells IN=x " "fix"
row "isdbt show cells IN=x fix " ""
row "isdbt sample " ""
row "isdbt other " ""
COMP_WORDBREAKS=$' \t\n'
row "isdbt remux 2 1/8 A:2:64" "A:2:64qam: +"
exit $wrong
