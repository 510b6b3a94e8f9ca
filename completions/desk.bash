# What bash offers after `desk`: first words, the words of each form, then files and folders.
#
# A line for each form of words, as `desk help` prints them, which `tests/completion -w` writes: `|` stands between words of
# which one is typed there, and FILE, FOLDER, NUMBER and TEXT for what is no fixed word; `FILE..` may be typed again.
_desk_forms='
implies FILE TEXT
explain implies FILE TEXT
check proof FILE FILE TEXT
check derivation FILE FILE TEXT
check rows FILE FILE
check references FILE NAMES FILE NAMES2
check key FILE TEXT
check join FILE FILE
check form 2nf|3nf|bcnf|4nf FILE FILE
check keeps FILE FILE
check same FILE FILE
check cover FILE FILE
check cover canonical FILE FILE
cover FILE
cover canonical FILE
basis FILE TEXT
closure FILE TEXT
project FILE TEXT
keys FILE
keys FILE FILE
form FILE
form FILE FILE
synthesize FILE
synthesize fewest FILE
split bcnf|4nf|wide-bcnf FILE
exhibit FILE
explain cover|keys|synthesize FILE
explain synthesize fewest FILE
explain split bcnf|4nf FILE
measure FILE FILE
offences FILE FILE
offences rows FILE FILE
kept FILE FILE
ddl 3nf|bcnf|4nf FILE
ddl plan FILE FILE
migrate 3nf|bcnf|4nf FILE FILE
migrate plan FILE FILE FILE
migrate 3nf|bcnf|4nf FILE FILE into FOLDER
migrate plan FILE FILE FILE into FOLDER
sample NUMBER
discover FILE
discover NUMBER FILE
discover keys|all FILE
discover near NUMBER NUMBER FILE
discover references FILE..
import csv FILE
import sqlite|postgres FILE TEXT
rejoin FILE FILE..
sql check|measure FILE TEXT
sql migrate 3nf|bcnf|4nf FILE TEXT
sql migrate plan FILE FILE TEXT
draw 3nf|bcnf|4nf FILE
draw plan FILE FILE
report FILE
report FILE FILE
help
--help
--version
'

# Whether a word may stand for this part of a form.
_desk_fits() {
  case $1 in
    FILE* | FOLDER | TEXT) [ -n "$2" ] ;;
    NUMBER) [[ $2 =~ ^[0-9]+$ ]] ;;
    *) [[ -n $2 && "|$1|" == *"|$2|"* ]] ;;
  esac
}

_desk() {
  local IFS=$' \t\n' form part at offered= has_files= has_folders= current=${COMP_WORDS[COMP_CWORD]}
  COMPREPLY=()
  while read -r -a form; do
    for ((at = 1; at <= COMP_CWORD; at++)); do
      part=${form[at - 1]-}
      if [ -z "$part" ] && [ "${form[*]: -1}" = FILE.. ]; then part=FILE; fi
      [ "$at" = "$COMP_CWORD" ] || _desk_fits "$part" "${COMP_WORDS[at]}" || continue 2
    done
    case $part in
      FILE*) has_files=1 ;;
      FOLDER) has_folders=1 ;;
      NUMBER | TEXT) ;;
      *) offered+=" ${part//|/ }" ;;
    esac
  done <<<"${_desk_forms:1}"
  mapfile -t COMPREPLY < <(compgen -W "$offered" -- "$current" | sort -u)
  if [ -n "$has_folders" ]; then
    compopt -o dirnames
  elif [ -n "$has_files" ] && [ -z "${offered// }" ]; then
    compopt -o default
  elif [ -n "$has_files" ]; then
    compopt -o filenames
    mapfile -t -O "${#COMPREPLY[@]}" COMPREPLY < <(compgen -f -- "$current")
  fi
}

complete -F _desk desk
