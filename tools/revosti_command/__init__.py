"""The command `revosti`: strike sheets, sets of marks and boards for people.

main         the command line, exit statuses, complaints
commands     the commands, one file each
options      what commands share: sheets, boards, sets, where the answer goes
handing      marking and asking over a set, confirming and withdrawing

parts        the binary input of `mark` and its pieces
nest         which record lies inside which
write        pieces to text (unpack)
scan         text to lines of tokens, and complaints with their place
read         text to pieces (pack)
tsplib       a board from a TSPLIB text and as one, and its faults in words
reals        a board from real coordinates

lengths      the lengths that a call is over: one table, or two
verdict      a sheet judged over a set
standing     the pairs that stand at a split, from the marker
fault        what a sheet lacks where it is refused
explain      a verdict in words, and for JSON
case         one record of a sheet: K, its split, its pairs
telling      a line told in words: the reason of each pair at its split
saving       what a rule takes out and puts in, in words
segment      the stretch that a case puts in another order, in words
slip         what examiner and candidate see of a marked sheet, in words
hall         a folder in which eight desks hand in and are served
tour         tours read and told

files        files read whole, replaced at once, locked
fingerprint  which lengths a set is of
archive      sets in files: started, read, changed
marks        the marks of a set, and what is no set
pages        the wall list of a board, and its lengths and marks again

edges        edges and sets of them, the names of the rules
labels       places for the holes' numbers, words that fit the legend
reason       what the picture of one reason shows
draw         the board as SVG
words        numbers in sentences, complaints
phrases      the sentences that the command and the page share
"""
