# Completion of the desk program's words for bash. It is read where bash-completion looks for it, or by hand:
#
#   . eskelvor.bash
#
# The subcommands and options are those that `eskelvor help --list` names; the desk program's tests hold the two against
# each other.

# The options of a subcommand.
_eskelvor_options() {
    local text='--text --exact' asked='--config -c --phase --lat --lon --hour --airfield'
    case $1 in
    report) echo '--jsonl --csv --fields --count --quiet' ;;
    track) echo '--csv --geojson --svg' ;;
    check | join) echo "$text" ;;
    explain) echo "$text --options" ;;
    section) echo "$text --words" ;;
    commute) echo "$text --exit-code" ;;
    compose)
        echo '--config -c --amdar --inhibit-hours --regions --airports --ascent --enroute --descent --downlink'
        echo '--reporting-box --report --inhibiting-box --inhibit --selected-for-ascent --selected-for-descent'
        echo '--inhibited-for-ascent --inhibited-for-descent --routine-instead --report-every --maximum-wind'
        echo '--samples-by --series-1-every --series-1-for --series-2-every --series-2-until --top --level-list --timer'
        echo '--descent-samples-by --descent-every --descent-top --descent-level-list --descent-timer'
        echo '--routine-in-ascent --routine-in-descent --hours'
        ;;
    apply) echo "--config -c --out -o --wait $text" ;;
    config) echo '--wait' ;;
    diff) echo '--exit-code' ;;
    decide) echo "$asked $text" ;;
    why) echo "$asked $text --board --aircraft" ;;
    gust) echo '--type --height --mass --acceleration --speed --csv --list' ;;
    board) echo "--db --wait --to --journal --office --flags --sections --downlinks $text" ;;
    journal) echo "--wait --at $text" ;;
    help) echo '--list' ;;
    esac
    echo '--json --help'
}

# The values of an option that has few.
_eskelvor_values() {
    case $1 in
    --amdar | --inhibit-hours | --regions | --airports | --ascent | --enroute | --descent) echo 'on off no-change' ;;
    --downlink) echo 'nothing flags configuration' ;;
    --routine-instead | --maximum-wind | --routine-in-ascent | --routine-in-descent) echo 'yes no' ;;
    --samples-by | --descent-samples-by) echo 'time pressure-level' ;;
    --level-list | --descent-level-list) echo '1 2' ;;
    --timer | --descent-timer) echo 'on off' ;;
    --reporting-box | --report | --inhibiting-box | --inhibit | --selected-for-ascent | --selected-for-descent | \
        --inhibited-for-ascent | --inhibited-for-descent | --hours) echo 'none' ;;
    --phase) echo 'ascent level descent' ;;
    --type)
        echo 'A300B4 A310 A318 A319 A320-200 A321 A330-200 A330-300 A340-200 A340-300'
        echo 'B727 B737-200 B737-300 B737-400 B737-500 B737-600 B737-700 B737-800 B747-200 B747-300'
        echo 'B747-400 B747SP B757-200 B757-300 B767-200 B767-300 B767-400 B777-200 B777-300 BAC111-200'
        echo 'BAC111-475 DC10-30 Electra Fokker-100 KingAir-100 L1011-500'
        ;;
    --fields)
        echo 'file report offset departure arrival designator observation kind kind_in_words latitude_change_minutes'
        echo 'longitude_change_minutes time_since_seconds latitude_minutes latitude_degrees lat longitude_minutes'
        echo 'longitude_degrees lon seconds_into_month day time altitude_feet altitude temperature_celsius temperature'
        echo 'wind_direction_degrees wind_direction wind_speed_knots wind_speed gust_metres_per_second gust'
        echo 'vapour_grams_per_kilogram vapour quality'
        ;;
    esac
}

_eskelvor_subcommands='report track check explain section compose join commute apply config diff decide why packed gust status board journal night help'

_eskelvor() {
    local current=${COMP_WORDS[COMP_CWORD]} before=${COMP_WORDS[COMP_CWORD - 1]} subcommand='' at words lead=''
    for ((at = 1; at < COMP_CWORD; at++)); do
        [[ ${COMP_WORDS[at]} == --json ]] && continue
        subcommand=${COMP_WORDS[at]}
        break
    done
    if [[ -z $subcommand ]]; then
        words="$_eskelvor_subcommands --json --help --version"
    elif [[ $current == -* && $current != - ]]; then
        words=$(_eskelvor_options "$subcommand")
    else
        words=$(_eskelvor_values "$before")
        case $subcommand:$((COMP_CWORD - at)):$words in
        board:2:) words='create add take return list find check grow convert grant' ;;
        board:3:) [[ ${COMP_WORDS[at + 1]} == --db ]] && words='create add take return list find check' ;;
        config:2:) words='convert' ;;
        journal:2:) words='list replay add drop check' ;;
        packed:1:) words='read write' ;;
        help:1:) words=$_eskelvor_subcommands ;;
        esac
    fi
    # Names of --fields are parted by commas: what stands before the last stays.
    [[ $before == --fields && $current == *,* ]] && lead=${current%,*},
    mapfile -t COMPREPLY < <(compgen -P "$lead" -W "$words" -- "${current#"$lead"}")
}

complete -o default -F _eskelvor eskelvor
