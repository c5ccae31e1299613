# Made by tools/launcher/pages.py from its table. For bash and zsh: source it, and type `qq` and a tab.
[ -z "${ZSH_VERSION-}" ] || { autoload -U bashcompinit && bashcompinit; }
_qq() {
  local word="${COMP_WORDS[COMP_CWORD]}" before="${COMP_WORDS[COMP_CWORD - 1]}" words=""
  case "$before" in
    --nodes) COMPREPLY=($(compgen -W "1 2 3 4 5 6 7" -- "$word")); return ;;
    --group) COMPREPLY=($(compgen -W "1 2 3 4 5 6 7" -- "$word")); return ;;
    --queues) COMPREPLY=($(compgen -W "1 1024" -- "$word")); return ;;
    --definitions) COMPREPLY=($(compgen -f -- "$word")); return ;;
    --root) COMPREPLY=($(compgen -d -- "$word")); return ;;
    --log-bytes) COMPREPLY=($(compgen -W "65536 67108864" -- "$word")); return ;;
    --node) COMPREPLY=($(compgen -W "1 2 3 4 5 6 7" -- "$word")); return ;;
  esac
  case "$COMP_CWORD:${COMP_WORDS[1]}" in
    1:*) words="script drill dump doctor check queues picture storm help version prove path" ;;
    *:script) words="--nodes --group --queues --definitions --ignore-policies --root --log-bytes --force" ;;
    *:drill) words="--nodes --check" ;;
    *:dump) words="--root --node" ;;
    *:doctor) words="--root --nodes --group --queues --definitions --ignore-policies" ;;
    *:check) words="--nodes --group --queues --definitions --ignore-policies" ;;
    *:queues) words="--root --messages" ;;
    *:picture) words="--nodes --group --queues" ;;
    *:help) words="script drill dump doctor check queues picture storm help version prove path --nodes --group --queues --definitions --ignore-policies --root --log-bytes --node --force --check --messages publish get send subscribe link credit attach settle return discard cancel purge end mute unmute resend manual auto pump write sync notice tick deliver lose copy crash restart show 0 2 3 4 5 6 7 8 9 11 12 20" ;;
  esac
  COMPREPLY=($(compgen -W "$words" -- "$word"))
  case "${COMP_WORDS[1]}" in check | queues | picture | storm)
    [ "$COMP_CWORD" -lt 2 ] || COMPREPLY+=($(compgen -f -- "$word")) ;;
  esac
}
complete -o filenames -F _qq qq ./qq
