# Completion of cityseq for bash. packaging/options.py writes this file.

_cityseq() {
  local current=${COMP_WORDS[COMP_CWORD]} before='' options='' files='' types
  types='
    Bridge Building CityFurniture CityObjectGroup GenericCityObject LandUse OtherConstruction
    PlantCover Railway Road SolitaryVegetationObject TINRelief TransportSquare Tunnel WaterBody
    Waterway BridgeConstructiveElement BridgeFurniture BridgeInstallation BridgePart BridgeRoom
    BuildingConstructiveElement BuildingFurniture BuildingInstallation BuildingPart BuildingRoom
    BuildingStorey BuildingUnit TunnelConstructiveElement TunnelFurniture TunnelHollowSpace
    TunnelInstallation TunnelPart'
  COMPREPLY=()
  if [ "$COMP_CWORD" = 1 ]; then
    options='check filter info help -h --help -V --version'
    mapfile -t COMPREPLY < <(compgen -W "$options" -- "$current")
    return
  fi
  case ${COMP_WORDS[COMP_CWORD - 1]} in
    --type)
      # the last item of a list with commas
      [[ $current != *,* ]] || before=${current%,*},
      mapfile -t COMPREPLY < <(compgen -P "$before" -W "$types" -- "${current##*,}")
      return
      ;;
    --line-limit | --depth | --id | --lod | --bbox)
      return
      ;;
  esac
  case ${COMP_WORDS[1]} in
    check)
      options='
        --line-limit --depth --keep-going --tree --extensions -h --help'
      files=yes
      ;;
    filter)
      options='
        --line-limit --depth --keep-going --tree --extensions --exclude --id --type --lod --bbox
        -h --help'
      files=yes
      ;;
    info)
      options='
        --line-limit --depth --tree --extensions -h --help'
      files=yes
      ;;
    help) options='check filter info' ;;
  esac
  if [ -n "$files" ] && [[ $current != -* ]]; then
    mapfile -t COMPREPLY < <(compgen -f -- "$current")
  else
    mapfile -t COMPREPLY < <(compgen -W "$options" -- "$current")
  fi
}

complete -o default -o filenames -F _cityseq cityseq
