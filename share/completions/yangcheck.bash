# Completions of yangcheck for bash. Needs nothing but bash 4.

_yangcheck_rules='FileName NoRevision IncompleteHeader StatementOrder UnusedImport VersionMix NoSuchDate RevisionOrder Version11
  MinAboveMax UnusedTypedef UnusedGrouping PatternAnchor NoDescription'

# Prints the names of the modules in the YANG files of the command line, or of the current folder if it names none.
_yangcheck_module_names() {
  local word files=()
  for word in "${COMP_WORDS[@]:2}"; do
    [[ $word == *.yang && -f $word ]] && files+=("$word")
  done
  [ ${#files[@]} -gt 0 ] || files=(./*.yang)
  sed -n 's/^[[:space:]]*module[[:space:]]\{1,\}\([A-Za-z_][A-Za-z0-9_.-]*\).*/\1/p' "${files[@]}" 2> /dev/null
}

# Offers files with an ending, and directories. Offers all files where there are none of these.
_yangcheck_files() {
  local ending=$1 word=$2
  mapfile -t COMPREPLY < <(compgen -f -X "!*$ending" -- "$word"; compgen -d -- "$word")
  [ ${#COMPREPLY[@]} -gt 0 ] || mapfile -t COMPREPLY < <(compgen -f -- "$word")
  compopt -o filenames 2> /dev/null
}

# Offers directories.
_yangcheck_folders() {
  mapfile -t COMPREPLY < <(compgen -d -- "$1")
  compopt -o filenames 2> /dev/null
}

# Offers words.
_yangcheck_words() {
  mapfile -t COMPREPLY < <(compgen -W "$1" -- "$2")
}

# Offers words for the last name of a list with commas.
_yangcheck_list() {
  local before=
  [[ $2 == *,* ]] && before=${2%,*},
  mapfile -t COMPREPLY < <(compgen -P "$before" -W "$1" -- "${2##*,}")
}

# Offers the value of an option. Fails if the option takes none.
_yangcheck_value() {
  local option=$1 word=$2
  case $option in
    --path) _yangcheck_folders "$word" ;;
    --data) _yangcheck_files .json "$word" ;;
    --each) _yangcheck_words "file line name name0" "$word" ;;
    --kind) _yangcheck_words "data config" "$word" ;;
    --format) _yangcheck_words "text json" "$word" ;;
    --rules) _yangcheck_list "$_yangcheck_rules" "$word" ;;
    --module) _yangcheck_words "$(_yangcheck_module_names)" "$word" ;;
    --support) _yangcheck_words "$(_yangcheck_module_names | sed 's/$/:/')" "$word" ;;
    --import-only) _yangcheck_list "$(_yangcheck_module_names)" "$word" ;;
    --max-nodes | --explain | --depth | --below) ;;
    *) return 1 ;;
  esac
  return 0
}

# Offers the options of a command that the command line does not have yet, and those that may be repeated: `--path`, `--data`, `--module`.
_yangcheck_options() {
  local command=$1 word=$2 option left=(--path)
  local options=(--max-nodes --support --import-only --help)
  [ "$command" = tree ] && options+=(--depth --below --columns) && left+=(--module)
  [ "$command" = validate ] && options+=(--each --kind --explain) && left+=(--data)
  [ "$command" = lint ] && options+=(--rules --format)
  [[ $command == compile || $command == validate ]] && options+=(--format --measures)
  for option in "${options[@]}"; do
    [[ " ${COMP_WORDS[*]:2} " == *" $option "* && $option != "$word" ]] || left+=("$option")
  done
  _yangcheck_words "${left[*]}" "$word"
}

_yangcheck() {
  local word=${COMP_WORDS[COMP_CWORD]} before=${COMP_WORDS[COMP_CWORD - 1]} command=${COMP_WORDS[1]}
  COMPREPLY=()
  # bash takes `--data=F` as three words.
  if [ "$word" = = ]; then
    word=
  elif [ "$before" = = ]; then
    before=${COMP_WORDS[COMP_CWORD - 2]}
  fi
  if [ "$COMP_CWORD" = 1 ]; then
    _yangcheck_words "compile tree validate lint files help --help --version" "$word"
  elif [ "$command" = help ]; then
    [ "$COMP_CWORD" != 2 ] || _yangcheck_words "compile tree validate lint files help" "$word"
  elif _yangcheck_value "$before" "$word"; then
    return
  elif [[ $word == -* ]]; then
    _yangcheck_options "$command" "$word"
  else
    _yangcheck_files .yang "$word"
  fi
}

complete -F _yangcheck yangcheck
