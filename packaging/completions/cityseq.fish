# Completion of cityseq for fish. packaging/options.py writes this file.

set -l commands check filter info help
set -g __cityseq_types \
    Bridge Building CityFurniture CityObjectGroup GenericCityObject LandUse OtherConstruction \
    PlantCover Railway Road SolitaryVegetationObject TINRelief TransportSquare Tunnel WaterBody \
    Waterway BridgeConstructiveElement BridgeFurniture BridgeInstallation BridgePart BridgeRoom \
    BuildingConstructiveElement BuildingFurniture BuildingInstallation BuildingPart BuildingRoom \
    BuildingStorey BuildingUnit TunnelConstructiveElement TunnelFurniture TunnelHollowSpace \
    TunnelInstallation TunnelPart

complete -c cityseq -n "not __fish_seen_subcommand_from $commands" -f
complete -c cityseq -n "not __fish_seen_subcommand_from $commands" -a check -d 'Check whether a stream is valid'
complete -c cityseq -n "not __fish_seen_subcommand_from $commands" -a filter -d 'Copy the header and the features that a query selects'
complete -c cityseq -n "not __fish_seen_subcommand_from $commands" -a info -d 'Summarise a valid stream'
complete -c cityseq -n "not __fish_seen_subcommand_from $commands" -a help -d 'Print this message or the help of the given subcommand(s)'
complete -c cityseq -n "not __fish_seen_subcommand_from $commands" -s h -l help -d 'Print help'
complete -c cityseq -n "not __fish_seen_subcommand_from $commands" -s V -l version -d 'Print version'

complete -c cityseq -n '__fish_seen_subcommand_from check' -F
complete -c cityseq -n '__fish_seen_subcommand_from check' -l line-limit -x -d 'Reject a line of more bytes'
complete -c cityseq -n '__fish_seen_subcommand_from check' -l depth -x -d 'Reject a line with more arrays and objects open at once'
complete -c cityseq -n '__fish_seen_subcommand_from check' -l keep-going -d 'Report each invalid line and go on with the next'
complete -c cityseq -n '__fish_seen_subcommand_from check' -l tree -d 'Reject a feature unless children lead from its main city object to all others'
complete -c cityseq -n '__fish_seen_subcommand_from check' -l extensions -d 'Accept types of city objects that begin with +'
complete -c cityseq -n '__fish_seen_subcommand_from check' -s h -l help -d 'Print help'

complete -c cityseq -n '__fish_seen_subcommand_from filter' -F
complete -c cityseq -n '__fish_seen_subcommand_from filter' -l line-limit -x -d 'Reject a line of more bytes'
complete -c cityseq -n '__fish_seen_subcommand_from filter' -l depth -x -d 'Reject a line with more arrays and objects open at once'
complete -c cityseq -n '__fish_seen_subcommand_from filter' -l keep-going -d 'Report each invalid line and go on with the next'
complete -c cityseq -n '__fish_seen_subcommand_from filter' -l tree -d 'Reject a feature unless children lead from its main city object to all others'
complete -c cityseq -n '__fish_seen_subcommand_from filter' -l extensions -d 'Accept types of city objects that begin with +'
complete -c cityseq -n '__fish_seen_subcommand_from filter' -l exclude -d 'Keep the features that the options below do not select'
complete -c cityseq -n '__fish_seen_subcommand_from filter' -l id -x -d 'Select features by id'
complete -c cityseq -n '__fish_seen_subcommand_from filter' -l type -x -a '(__fish_complete_list , "string join \n $__cityseq_types")' -d 'Select features that have a city object of one of these types'
complete -c cityseq -n '__fish_seen_subcommand_from filter' -l lod -x -d 'Select features that have a geometry with one of these LoDs'
complete -c cityseq -n '__fish_seen_subcommand_from filter' -l bbox -x -d 'Select features that reach into this box'
complete -c cityseq -n '__fish_seen_subcommand_from filter' -s h -l help -d 'Print help'

complete -c cityseq -n '__fish_seen_subcommand_from info' -F
complete -c cityseq -n '__fish_seen_subcommand_from info' -l line-limit -x -d 'Reject a line of more bytes'
complete -c cityseq -n '__fish_seen_subcommand_from info' -l depth -x -d 'Reject a line with more arrays and objects open at once'
complete -c cityseq -n '__fish_seen_subcommand_from info' -l tree -d 'Reject a feature unless children lead from its main city object to all others'
complete -c cityseq -n '__fish_seen_subcommand_from info' -l extensions -d 'Accept types of city objects that begin with +'
complete -c cityseq -n '__fish_seen_subcommand_from info' -s h -l help -d 'Print help'

complete -c cityseq -n '__fish_seen_subcommand_from help' -f -a 'check filter info'
