# Completion of hk, hkreplay and hkmon for bash: source this file, or put it in /etc/bash_completion.d.

_hk_common="--help --version --quiet"
_hk_limits="--stations --hop --songs --positions --versions --bytes"

_hk_words() {
  case "$1" in
    pack) echo "$_hk_common --kept --output --program" ;;
    send) echo "$_hk_common --to --channels --factor --rate --name --first --fence --wait --real-time --live --seconds --keep" ;;
    operate) echo "$_hk_common --to --channels --factor --rate --keep" ;;
    plays) echo "$_hk_common --beside --output --format --station --join --least --without-silent --factor --rate" ;;
    check) echo "$_hk_common --rate $_hk_limits" ;;
    explain) echo "$_hk_common status refused" ;;
    bits)
      echo "$_hk_common --input --line --id --block --from --recording --at --output --scale --program $_hk_limits"
      ;;
    replay) echo "--stations --flips --hop --songs --positions --versions --bytes" ;;
    print) echo "--channels --factor --flips --bytes" ;;
    make) echo "--stations --flips --hop" ;;
    hkmon) echo "--stations --workers --flips --hop --songs --positions --versions --bytes" \
      "--address --station-port --operator-port --logs" ;;
  esac
}

_hk_complete() {
  local here="${COMP_WORDS[COMP_CWORD]}" before="${COMP_WORDS[COMP_CWORD - 1]}" words
  COMPREPLY=()
  case "$before" in
    --format) words="csv json cue" ;;
    --factor) words="1 2 4 8" ;;
    --channels) words="1 2" ;;
    *)
      if [ "$3" = "hk" ] || [ "$COMP_CWORD" -eq 1 ]; then
        case "${COMP_WORDS[0]##*/}" in
          hk) words="pack send operate plays check explain bits --help --version" ;;
          hkreplay) words="replay print make" ;;
          hkmon) words="$(_hk_words hkmon)" ;;
        esac
      elif [ "${COMP_WORDS[0]##*/}" = "hkmon" ]; then
        words="$(_hk_words hkmon)"
      else
        words="$(_hk_words "${COMP_WORDS[1]}")"
      fi
      ;;
  esac
  case "$here" in
    -* | "") ;;
    *) if [ "$COMP_CWORD" -gt 1 ]; then return; fi ;;
  esac
  mapfile -t COMPREPLY < <(compgen -W "$words" -- "$here")
}

complete -o default -F _hk_complete hk hkreplay hkmon
