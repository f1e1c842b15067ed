#!/usr/bin/env -S zsh -f
# Completes each line of standard input in an interactive zsh, and prints it with all matches put
# in.
#
#     tests/packages/complete.zsh FOLDER < LINES      (FOLDER has the completions)
zmodload zsh/zpty || exit
folder=${1:A}
scratch=$(mktemp -d) || exit
trap 'rm -rf $scratch' EXIT
cat > $scratch/.zshrc <<SETUP
fpath=(${(q)folder} \$fpath)
autoload -Uz compinit && compinit -u -D
PS1= PS2= RPS1=
unsetopt list_beep prompt_cr
put_all() { _main_complete; compstate[insert]=all compstate[list]= }
zle -C put-all complete-word put_all
show() {
  zle put-all
  print -r -- "\$BUFFER" > $scratch/line
  mv $scratch/line $scratch/shown
  BUFFER=
}
zle -N show
bindkey '^T' show
: > $scratch/ready
SETUP
# Waits until a file is there, 20 seconds at most.
wait_for() {
  local turns
  for turns in {1..1000}; do
    [[ -e $1 ]] && return
    zpty -rt shell unread
    sleep 0.02
  done
  return 1
}
zpty shell "env ZDOTDIR=${(q)scratch} TERM=vt100 zsh -d -i"
wait_for $scratch/ready || { print -u2 'complete.zsh: the shell does not start'; exit 1 }
while IFS= read -r line; do
  zpty -w -n shell "$line"$'\C-t'
  wait_for $scratch/shown || { print -u2 "complete.zsh: no answer to '$line'"; exit 1 }
  cat $scratch/shown
  rm $scratch/shown
done
zpty -d shell
