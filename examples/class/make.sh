# Makes the hand-ins of a class in a new folder: the payroll, as thirty pupils might hand it in.
#     sh examples/class/make.sh FOLDER IBM1620
# The second word is the program, which makes the object decks among them.
set -e
examples=$(dirname "$0")/..
source=$examples/payroll/source.txt
class=$1
program=$2
mkdir "$class"

# A source in which sed has changed something.
changed() {
    sed "$2" "$source" > "$class/$1.txt"
}

# A source of these lines.
written() {
    name=$1
    shift
    printf '%s\n' "$@" > "$class/$name.txt"
}

# Right: a source, one in a folder of the pupil, one with page and line and a label of letters that are digits too, and a deck.
cp "$source" "$class/ada.txt"
mkdir "$class/yan_1025_file"
cp "$source" "$class/yan_1025_file/source.txt"
changed vera 's/^     \*PAYROLL/01010KLMNOPNOP/; s/DENDSTART/DENDKLMNOP/'
"$program" assemble --source "$source" --object "$class/max.txt" > "$class/report"
rm "$class/report"

# Right, with CR LF at the line ends: a source and a deck.
sed 's/$/\r/' "$source" > "$class/ida.txt"
sed 's/$/\r/' "$class/max.txt" > "$class/uma.txt"

# Another text: a total that begins with 1, a flag that is typed, and a constant that is right for the pupil's own cards alone.
changed ben 's/DC  8,0/DC  8,1/'
changed carl '/CF  TOTAL-7/d'
written nina '     START WNCDONE' '           WNCDTWO' '           WNTYTOTAL' '           RCTY' '           H' \
    '     ONE   DSC 16,12300000010000' '           DSC 50,0' '           DSC 14,0' \
    '     TWO   DSC 16,12400000010500' '           DSC 50,0' '           DSC 14,0' \
    '     TOTAL DSC 8,20500' '           DSC 1,@' '           DENDSTART'

# Other cards: the sum in the next column, and a digit in column 60.
changed cleo 's/OUT+15/OUT+16/; s/OUT+10/OUT+11/'
changed otto 's/^           WNCDOUT/           TDM OUT+59,1\n&/'

# Runs that don't end, with all done and with nothing done.
changed dora 's/^           H$/     DONE  B   DONE/'
written pia '     START B   START' '           DENDSTART'

# Runs that end too early: without asking for the last card, and without a halt.
changed zoe 's/BNLCSTART/B   START/'
changed alma '/^           H$/d'

# Refused: a name that is no label, a source without its end, and one with tabs.
changed emil 's/A   TOTAL/A   TOTL/'
changed quin '$d'
changed jan 's/^     \([A-Z]*\)  */     \1\t/'

# Empty: no byte, and line ends alone.
: > "$class/fred.txt"
printf '   \n\r\n\n' > "$class/rosa.txt"

# Nothing handed in: nothing of gina, and a folder without a file. A folder with two files is not clear.
mkdir "$class/sam" "$class/bela"
cp "$source" "$class/bela/source.txt"
cp "$source" "$class/bela/draft.txt"

# Links: to the solution, and to nothing.
ln -s "$(readlink -f "$source")" "$class/hans.txt"
ln -s nowhere "$class/tom.txt"

# Decks exchanged: the deck of another task, the data cards for the program, and the tables behind the deck that adds.
cp "$examples/one-card/deck.txt" "$class/kim.txt"
cp "$examples/payroll/data.txt" "$class/will.txt"
cat "$examples/add-two/deck.txt" "$examples/tables/deck.txt" > "$class/dina.txt"

# Enormous outputs: a line that never ends, and cards without end.
written lea '     START WNTYN' '           B   START' '     N     DSC 5,12345' '           DSC 1,@' '           DENDSTART'
written xenia '     START WNCDN' '           B   START' '     N     DSS 80' '           DENDSTART'
