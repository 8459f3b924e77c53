# Prints what zsh offers behind a line, each match on a line of its own: zsh -f completions.zsh FOLDER LINE, where FOLDER has the function _guard.
zmodload zsh/zpty || exit 70
zpty child zsh -f -i
ask() { zpty -w child "$1" }
ask 'PS1= PROMPT= RPROMPT=; unset zle_bracketed_paste; fpath=('${(q)1}' $fpath); autoload -Uz compinit; compinit -u -D'
ask 'function compadd {
  if [[ ${@[1,(i)(-|--)]} == *-(O|A|D)\ * ]]; then builtin compadd "$@"; return; fi
  local it; local -a found
  builtin compadd -A found "$@"
  for it in $found; do print -r -- "match:$it"; done
  builtin compadd "$@"
}'
ask 'show() { zle complete-word; print -r -- "the"end; exit }; zle -N show; bindkey "^I" show; print the"ready"'
local out all=
zpty -r -m child out '*theready*'
zpty -w -n child "$2"$'\t'
while zpty -r child out; do
  all+=$out
  [[ $all == *theend* ]] && break
done
zpty -d child
print -r -- "$all" | tr -d '\r' | sed -n 's/.*match://p' | sort -u
