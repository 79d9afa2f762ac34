# Completion of gsmgate's words for bash.

_gsmgate() {
  local current=${COMP_WORDS[COMP_CWORD]} previous=${COMP_WORDS[COMP_CWORD - 1]} command=${COMP_WORDS[1]}
  local commands="simulate decode encode render verify make serve" numbers="--ring --delay --seed --ticks --report --ssrc --sequence --stamp --reply"
  local options="" word given=" "
  COMPREPLY=()
  if ((COMP_CWORD == 1)); then
    mapfile -t COMPREPLY < <(compgen -W "$commands" -- "$current")
    return
  fi
  case $command in
  simulate) options="--pcm --seed" ;;
  render) options="--seed" ;;
  serve) options="$numbers --speaker --microphone --journals" ;;
  decode | encode | verify | make) ;;
  *) return ;;
  esac
  # The value of an option: a path, or a number or an address, of which nothing is known.
  case $previous in
  --speaker | --microphone | --journals) compopt -o filenames 2>/dev/null; mapfile -t COMPREPLY < <(compgen -f -- "$current"); return ;;
  --*) [[ " $numbers " == *" $previous "* ]] && return ;;
  esac
  if [[ $current == -* ]]; then
    # Each option is given once at most.
    for word in "${COMP_WORDS[@]:2:COMP_CWORD-2}"; do given+="$word "; done
    for word in $options; do
      [[ $given == *" $word "* ]] || [[ $word != "$current"* ]] || COMPREPLY+=("$word")
    done
    return
  fi
  # LISTEN is an address, and the first words of make are numbers.
  [[ $command == serve ]] && return
  [[ $command == make ]] && ((COMP_CWORD < 5)) && return
  compopt -o filenames 2>/dev/null
  mapfile -t COMPREPLY < <(compgen -f -- "$current")
}
complete -F _gsmgate gsmgate
