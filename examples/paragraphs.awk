# Records of several lines, with empty lines between them: a line for each entry of an address book.
#     $ rawk -f paragraphs.awk paragraphs.in

BEGIN { RS = ""; FS = "\n"; OFS = "; " }

{ $1 = $1; print NR ": " $0 }
