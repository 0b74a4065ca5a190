#!/bin/sh
# Two offices on one board: grants, and adding within them.
. "$(dirname "$0")/cases.sh"
cd "$scratch"
level=AWR041999999000400000/151/
hours=AWR049199999000000000/

answers 0 'a board' board b create 2
answers 0 'no grants yet' board b grant
out_is
answers 0 'the first office' board b grant east --flags amdar,ascent --sections 4,9 --downlinks
out_is 'east: flag AMDAR, flag ascent, section 4 (level flight), section 9 (the hours of silence), downlinks'
answers 1 'a section that the other has' board b grant west --flags hours --sections 9
err_is 'eskelvor: west: refused: code 13 at byte 0: not granted to the office, or the two grants overlap: the other office has some of that'
answers 0 'the second office' board b grant west --flags hours
answers 2 'no third' board b grant south
answers 2 'no such flag' board b grant west --flags wings
answers 2 'no such section' board b grant west --sections 10
answers 2 'no such name' board b grant 'a b'
answers 0 'the grants as they were' board b grant
out_is 'east: flag AMDAR, flag ascent, section 4 (level flight), section 9 (the hours of silence), downlinks' 'west: flag inhibit hours'

answers 2 'every add has an office' board b add AU0137 $level
answers 2 'which has a grant' board b add --office south AU0137 $level
answers 2 'a taking has none' board b take --office east AU0137
answers 0 'within the grant' board b add --office east AU0137 $level
answers 1 'outside it, in two things' board b add --office west AU0137 AWR049199999100400000/151/
err_is 'eskelvor: AU0137: refused: code 13 at byte 0: not granted to the office, or the two grants overlap: west may not set section 4 (level flight), downlinks'
answers 0 'the other office' board b add --office west AU0137 $hours
answers 0 'both wait' board b take AU0137
out_is AWR041199999000400000/151/
answers 0 'returned without an office' board b return AU0137 $level

cp b.grants kept
echo 'east 1' >b.grants
answers 2 'a broken file of grants' board b add --office east AU0137 $level
printf 'east 1000000 0 00000000\nwest 1000000 0 00000000\n' >b.grants
answers 1 'grants that overlap, in the file' board b add --office east AU0137 $level
cp kept b.grants
answers 0 'and as before' board b add --office east AU0137 $level

answers 1 'the same for a machine' board b add --json --office west AU0137 $level
json_has results.0.accepted=false results.0.code=13 status=1

done_with 'offices'
