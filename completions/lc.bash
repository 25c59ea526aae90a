# Completions of lc for bash.

# Of the columns of --by, the arguments after the first, those that are left after those that are typed, in a list with commas.
_lc_columns() {
  local typed=${1%"${1##*,}"} column
  for column in "${@:2}"; do
    [[ ,$typed == *,$column,* ]] || printf '%s\n' "$typed$column"
  done
}

# The options of command $1: made by tools/options
_lc_options() {
  case $1 in
    count) echo --exclude --exclude-from --include --no-ignore --archive --without --attributes-from --only --only-from \
      --null -0 --one-file-system -x --files --left-out --where --no-binary --format --by --depth --sort --top --share \
      --fail-if-any --threads -j --max-dirs ;;
    sum) echo --files --left-out --where --no-binary --format --by --depth --sort --top --share --null -0 --fail-if-any \
      ;;
    diff) echo --exclude --exclude-from --include --no-ignore --archive --without --attributes-from --only --only-from \
      --null -0 --one-file-system -x --no-binary --depth --top --threads -j --max-dirs --all --files --where --format \
      --by --sort --fail-if-any ;;
    explain) echo --exclude --exclude-from --include --no-ignore --archive --without --attributes-from --null -0 ;;
    check) echo --explain --null -0 ;;
  esac
}

# Completes the value of option $1 of command $3, of which $2 is typed, and fails if it has none.
_lc_value() {
  case $1 in
    --exclude) ;;
    --exclude-from) mapfile -t COMPREPLY < <(compgen -f -- "$2") ;;
    --include) ;;
    --without) mapfile -t COMPREPLY < <(compgen -W 'linguist-vendored linguist-generated linguist-documentation' -- "$2") ;;
    --attributes-from) mapfile -t COMPREPLY < <(compgen -f -- "$2") ;;
    --only) mapfile -t COMPREPLY < <(compgen -f -- "$2") ;;
    --only-from) mapfile -t COMPREPLY < <(compgen -f -- "$2") ;;
    --where)
      compopt -o nospace 2> /dev/null
      case $3 in
        count | sum) mapfile -t COMPREPLY < <(compgen -W 'lang= ext= text= eol= attr: lines> blank> bytes>' -- "$2") ;;
        diff) mapfile -t COMPREPLY < <(compgen -W 'lang= ext= text= eol= attr: lines> blank> bytes> change=' -- "$2") ;;
      esac
      ;;
    --format)
      case $3 in
        count | sum) mapfile -t COMPREPLY < <(compgen -W 'tsv table json csv markdown html tree paths' -- "$2") ;;
        diff) mapfile -t COMPREPLY < <(compgen -W 'tsv table json csv markdown' -- "$2") ;;
      esac
      ;;
    --by) mapfile -t COMPREPLY < <(compgen -W "$(_lc_columns "$2" dir lang ext text eol)" -- "$2") ;;
    --depth) mapfile -t COMPREPLY < <(compgen -W '1 2 3' -- "$2") ;;
    --sort) mapfile -t COMPREPLY < <(compgen -W 'name files lines blank bytes' -- "$2") ;;
    --top) mapfile -t COMPREPLY < <(compgen -W '10 20 50' -- "$2") ;;
    -j | --threads) mapfile -t COMPREPLY < <(compgen -W '1 2 4 8 16' -- "$2") ;;
    --max-dirs) mapfile -t COMPREPLY < <(compgen -W '65536 1048576' -- "$2") ;;
    *) return 1 ;;
  esac
}
# the options end here

# Whether a first argument makes all arguments those of lc count. A directory is known once the argument is whole, so $2 is over 1.
_lc_counts() {
  case $1 in
    -* | . | .. | */*) ;;
    count | sum | diff | explain | check | languages | help) return 1 ;;
    *) [[ $2 -gt 1 && -d $1 ]] ;;
  esac
}

_lc() {
  local current=${COMP_WORDS[COMP_CWORD]} option=${COMP_WORDS[COMP_CWORD - 1]} command=${COMP_WORDS[1]}
  local options='--help -h'
  COMPREPLY=()
  if _lc_counts "$command" "$COMP_CWORD"; then
    command=count
    [ "$COMP_CWORD" -gt 1 ] || options+=' --version -V'
  elif [ "$COMP_CWORD" -eq 1 ]; then
    mapfile -t COMPREPLY < <(compgen -W 'count sum diff explain check languages help' -- "$current"; compgen -d -- "$current")
    return
  fi
  # bash takes the = of --threads=8 as a word
  if [ "$current" = = ]; then
    current=
  elif [ "$option" = = ]; then
    option=${COMP_WORDS[COMP_CWORD - 2]}
  fi
  case $command in
    count | sum | diff | explain | check)
      if [ "$command" != check ] && _lc_value "$option" "$current" "$command"; then
        return
      fi
      case $command$current in
        count-* | sum-* | diff-* | explain-* | check-*) mapfile -t COMPREPLY < <(compgen -W "$(_lc_options "$command") $options" -- "$current") ;;
        count*) mapfile -t COMPREPLY < <(compgen -d -- "$current") ;;
        *) mapfile -t COMPREPLY < <(compgen -f -- "$current") ;;
      esac
      ;;
    languages) mapfile -t COMPREPLY < <(compgen -W "$options" -- "$current") ;;
    help) mapfile -t COMPREPLY < <(compgen -W 'count sum diff explain check languages' -- "$current") ;;
  esac
}

complete -o filenames -F _lc lc
