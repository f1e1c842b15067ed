# Completion of cityseq-run for bash. packaging/options.py writes this file.

_cityseq_run() {
  local current=${COMP_WORDS[COMP_CWORD]} before='' options='' files='' types
  types='
    Bridge Building CityFurniture CityObjectGroup GenericCityObject LandUse OtherConstruction
    PlantCover Railway Road SolitaryVegetationObject TINRelief TransportSquare Tunnel WaterBody
    Waterway BridgeConstructiveElement BridgeFurniture BridgeInstallation BridgePart BridgeRoom
    BuildingConstructiveElement BuildingFurniture BuildingInstallation BuildingPart BuildingRoom
    BuildingStorey BuildingUnit TunnelConstructiveElement TunnelFurniture TunnelHollowSpace
    TunnelInstallation TunnelPart'
  COMPREPLY=()
  if [ "$COMP_CWORD" = 1 ]; then
    options='check filter info index pack report split collect serve explain help -h --help -V --version'
    mapfile -t COMPREPLY < <(compgen -W "$options" -- "$current")
    return
  fi
  case ${COMP_WORDS[COMP_CWORD - 1]} in
    --type)
      # the last item of a list with commas
      [[ $current != *,* ]] || before=${current%,*},
      mapfile -t COMPREPLY < <(compgen -P "$before" -W "$types" -- "${current##*,}")
      return
      ;;
    --output-dir)
      mapfile -t COMPREPLY < <(compgen -d -- "$current")
      return
      ;;
    --files-from | --record | --ids-from | --index | -o | --output | --show | --refresh)
      mapfile -t COMPREPLY < <(compgen -f -- "$current")
      return
      ;;
    --format)
      mapfile -t COMPREPLY < <(compgen -W 'sarif' -- "$current")
      return
      ;;
    --line-limit | --depth | -j | --jobs | --part-size | --cluster | --max-reports | --id | --lod | --bbox | --limit | --where | --base | --level | --attributes | --title | --host | --port | --url | --cors | --max-requests | --max-bodies | --max-body | --max-whole | --max-features | --max-seconds | --idle-seconds | --min-rate | --stop-seconds)
      return
      ;;
  esac
  case ${COMP_WORDS[1]} in
    check)
      options='
        --line-limit --depth --keep-going --tree --extensions --whole --files-from --null -j
        --jobs --part-size --cluster --json --sha256 --max-reports --summary --progress -q
        --quiet --format --record --resume -h --help'
      files=yes
      ;;
    filter)
      options='
        --line-limit --depth --keep-going --tree --extensions --exclude --id --ids-from --type
        --lod --bbox --limit --index --where --base -o --output --output-dir --keep-folders
        --keep-partial --level --files-from --null -j --jobs --part-size --cluster --json
        --sha256 --max-reports --summary --progress -q --quiet --record --resume -h --help'
      files=yes
      ;;
    info)
      options='
        --line-limit --depth --tree --extensions --whole --lods --files-from --null -j --jobs
        --part-size --cluster --json --sha256 --max-reports --summary --progress -q --quiet -h
        --help'
      files=yes
      ;;
    index)
      options='
        --line-limit --depth --keep-going --tree --extensions -o --output --footprints
        --attributes --show --refresh --files-from --null -j --jobs --part-size --cluster --json
        --max-reports --summary --progress -q --quiet -h --help'
      files=yes
      ;;
    pack)
      options='
        -o --output --verify --level --files-from --null -j --jobs --progress -q --quiet -h
        --help'
      files=yes
      ;;
    report)
      options='
        --line-limit --depth --tree --extensions --whole -o --output --title --files-from --null
        -j --jobs --part-size --json --progress -q --quiet -h --help'
      files=yes
      ;;
    split)
      options='
        --line-limit -o --output -q --quiet -h --help'
      files=yes
      ;;
    collect)
      options='
        --line-limit --depth -o --output --files-from --null -q --quiet -h --help'
      files=yes
      ;;
    serve)
      options='
        --host --port --url --cors --base -j --jobs --max-requests --max-bodies --max-body
        --max-whole --max-features --max-seconds --idle-seconds --min-rate --stop-seconds
        --line-limit --depth -q --quiet -h --help'
      files=yes
      ;;
    explain)
      options='
        -h --help 1 2 3 4 5 10 11 12 13 14 15 16 17 18 19 20 21 22 23 24 25 26 27 28 29 30 31'
      files=
      ;;
    help) options='check filter info index pack report split collect serve explain' ;;
  esac
  if [ -n "$files" ] && [[ $current != -* ]]; then
    mapfile -t COMPREPLY < <(compgen -f -- "$current")
  else
    mapfile -t COMPREPLY < <(compgen -W "$options" -- "$current")
  fi
}

complete -o default -o filenames -F _cityseq_run cityseq-run
