# Made by tools/command_line.py from --help: completions for bash. Source this file.
# What may stand in place of the word: programs and folders where `files` isn't empty, else one of the words.
_inet_offer() {
  local files=$1 word=$2 words=$3
  if [[ $files && $word != -* ]]; then
    compopt -o filenames
    mapfile -t COMPREPLY < <(compgen -d -- "$word"; compgen -f -X '!*.inet' -- "$word")
  else
    mapfile -t COMPREPLY < <(compgen -W "$words" -- "$word")
  fi
}
_inet() {
  local word=${COMP_WORDS[COMP_CWORD]} before=${COMP_WORDS[COMP_CWORD-1]} words files=
  if ((COMP_CWORD == 1)); then
    words='check derive run help -h --help -V --version'
  else
    case ${COMP_WORDS[1]} in
      check)
        words='--large -h --help' files=1 ;;
      derive)
        words='--large -h --help' files=1 ;;
      run)
        case $before in --workers|--limit|--cells|--small-cells|--large-cells|--wide-cells) return ;; esac
        words='--workers --limit --cells --small-cells --large-cells --wide-cells --no-net --stats --large -h --help' files=1 ;;
      help) if ((COMP_CWORD == 2)); then words='check derive run'; fi ;;
    esac
  fi
  _inet_offer "$files" "$word" "$words"
}
complete -F _inet inet
_inet_export() {
  local word=${COMP_WORDS[COMP_CWORD]} before=${COMP_WORDS[COMP_CWORD-1]} words files=
  words='--large -h --help -V --version' files=1
  _inet_offer "$files" "$word" "$words"
}
complete -F _inet_export inet_export
_inet_c() {
  local word=${COMP_WORDS[COMP_CWORD]} before=${COMP_WORDS[COMP_CWORD-1]} words files=
  case $before in --limit|--workers) return ;; --order) mapfile -t COMPREPLY < <(compgen -W 'newest queue' -- "$word"); return ;; esac
  words='--large --order -h --help' files=1
  case "${COMP_WORDS[*]:1:COMP_CWORD-1} " in *.inet\ *) words='--limit --workers' ;; esac
  _inet_offer "$files" "$word" "$words"
}
complete -F _inet_c inet_c
