#!/bin/sh
# Shows what judge_file says of lines that are not in the form: faults.sh JUDGE_FILE
fault() {
    echo "--- $1"
    printf "$2" | "$judge_file" -
    echo "exit status $?"
}

judge_file=$1
fault 'a carriage return before the line feed' 'K        1        2\r\n'
fault 'a small letter' 'k        1        2\n'
fault 'a column that is not nine wide' 'K       1        2\n'
fault 'a number that does not end at its column'"'"'s right edge' 'K       1         2\n'
fault 'a leading zero' 'K       01        2\n'
fault 'a tab' 'K\t1\t2\n'
fault 'no last line feed' 'K        1        2'
fault 'an empty line' 'K        1        2\n\n'
fault 'a blank at the end' 'K        1        2 \n'
fault 'another letter' 'X        1        2\n'
fault 'too many digits' 'K        1123456789\n'
fault 'something that is no digit' 'K        1        x\n'
fault 'an empty column' 'K                 2\n'
fault 'a K line with one column' 'K        1\n'
fault 'an R line with one column' 'R        1\n'
fault 'a rule without an H line' 'K        1        1\nB        1        1\n'
