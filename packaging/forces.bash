# Completion for bash of the words of `forces`: the commands, and for `element`, `control` and `gen` what their operands may look like.
#
# Use: source packaging/forces.bash

# Puts the words up to the cursor into `words`. Bash splits a word at its colons: it is put together again, where an empty word behind a
# colon is one of its own.
_forces_words() {
  local piece before=
  words=()
  for piece in "${COMP_WORDS[@]:0:COMP_CWORD+1}"; do
    if [[ $piece == +(:) || ($before == +(:) && -n $piece) ]]; then
      words[-1]+=$piece
    else
      words+=("$piece")
    fi
    before=$piece
  done
}

_forces() {
  local -a words
  _forces_words
  local at=$((${#words[@]} - 1))
  local word=${words[at]} last=
  if [ "$at" -gt 1 ]; then
    last=${words[at - 1]}
  fi
  COMPREPLY=()
  # A file stands behind a redirection, and keeps the rounds of a control element.
  case $last:$at:${words[1]-} in
    '<:'* | '>:'* | '>>:'* | *:3:control)
      compopt -o filenames 2>/dev/null
      mapfile -t COMPREPLY < <(compgen -f -- "$word")
      ;;
    *)
      mapfile -t COMPREPLY < <(compgen -W "$(_forces_operands "$at" "${words[1]-}")" -- "$word")
      ;;
  esac
  # Of a word that was split what is offered takes the place of what stands behind its last colon.
  if [[ $word != "${COMP_WORDS[COMP_CWORD]}" ]]; then
    COMPREPLY=("${COMPREPLY[@]#"${word%"${word##*:}"}"}")
  fi
}

# What the word of this place may be, with this command.
_forces_operands() {
  case $1:$2 in
    1:*) echo show make element control world gen ;;
    2:gen) echo 1 10 100 1000 ;;
    2:control | 3:element) echo 40000001 ;;
    4:element) echo 127.0.0.1:6653 0.0.0.0:6653 ;;
    4:control | 5:control) ;;
    *:control) echo 127.0.0.1:6653 ;;
  esac
}

complete -F _forces forces
