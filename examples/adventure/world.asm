; The rooms, the things and the words.

        PUBLIC  ROOMS,NAMES,SIGHTS,VERBS,NOUNS
        EXTRN   LOOK,WALK,LIST,TAKE,DROP,POUR,LIGHT,UNLOCK      ; in rules.asm
        EXTRN   EXAMINE,WAKE,DRINK,WAIT,HELP,QUIT
        EXTRN   SAVE,LOAD                                       ; in disk.asm

; Two words that mean the same. Of a verb, the value is a direction or a routine.
WORDS   MACRO   FIRST,SECOND,VALUE
        DB      FIRST
        DW      VALUE
        DB      SECOND
        DW      VALUE
        ENDM

; Each room has its exits to the north, south, east, west, up and down, and then
; its description.
ROOMS:  DW      ROOM1,ROOM2,ROOM3,ROOM4,ROOM5,ROOM6,ROOM7
        DW      ROOM8,ROOM9,ROOM10,ROOM11,ROOM12,ROOM13,ROOM14
ROOM1:  DB      YARD,0,BEACH,0,0,0
        DB      'You are on a jetty of wet planks. The boat that brought you is a',LF
        DB      'long way out already. A path goes north to the yard of the light',LF
        DB      'station. East of you is a beach.',LF,0
ROOM2:  DB      FOOT,JETTY,SHED,KITCHEN,0,0
        DB      'You are in the yard. The tower is to the north, the kitchen to the',LF
        DB      'west, a shed to the east, and the jetty to the south. Nobody comes',LF
        DB      'to ask what you want, and that is what is wrong with it.',LF,0
ROOM3:  DB      0,0,YARD,0,BEDROOM,CELLAR
        DB      'The kitchen is still warm. On the table is a cup of tea that nobody',LF
        DB      'drank. A ladder goes up, a stair goes down into the dark, and the',LF
        DB      'door to the yard is in the east.',LF,0
ROOM4:  DB      0,0,0,0,0,KITCHEN
        DB      'A bedroom under the roof. The bed is made. The keeper has hung up',LF
        DB      'his coat, his cap, and his Sunday trousers. The ladder goes down.',LF,0
ROOM5:  DB      0,0,0,YARD,0,0
        DB      'The shed has a tool for everything, and all of them have rusted to',LF
        DB      'the wall. The yard is to the west.',LF,0
ROOM6:  DB      0,0,0,JETTY,0,0
        DB      'A beach of stones. In the cliff you see a cave, but it is full of',LF
        DB      'waves; nobody gets in from here. The jetty is to the west.',LF,0
ROOM7:  DB      0,YARD,0,0,STAIR,0
        DB      'The foot of the tower. A stair of stone winds up along the wall. The',LF
        DB      'door is to the south.',LF,0
ROOM8:  DB      0,0,0,0,WATCH,FOOT
        DB      'You are halfway up the tower, and the wind is in the stair with you.',LF,0
ROOM9:  DB      0,0,0,0,TOP,STAIR
        DB      'The watch room has a stove, a chair, and a window to the sea. There',LF
        DB      'are lights out there, in a row: a ship. Stairs go up and down.',LF,0
ROOM10: DB      0,0,GALLERY,0,0,WATCH
        DB      'You are at the top, in a room of glass. The great lamp in the middle',LF
        DB      'is as tall as you are, and cold. A small door leads east, outside.',LF,0
ROOM11: DB      CARRIED,CARRIED,CARRIED,TOP,0,0
        DB      'You are on the gallery around the lamp room. The wind pulls at you,',LF
        DB      'and the rail is more rust than rail. The door is to the west.',LF,0
ROOM12: DB      0,0,PASSAGE,0,KITCHEN,0
        DB      'The cellar. You walk around a well that has no cover. A stair goes',LF
        DB      'up. In the east wall is a passage that is on no plan of the house.',LF,0
ROOM13: DB      0,0,CAVE,CELLAR,0,0
        DB      'The passage is low and smells of the sea and of something better. It',LF
        DB      'goes east and west.',LF,0
ROOM14: DB      0,0,0,PASSAGE,0,0
        DB      'You are in the cave, and the sea is in it too. On a dry ledge, among',LF
        DB      'barrels that have paid no duty, the keeper sleeps with a smile. The',LF
        DB      'passage goes west.',LF,0

NAMES:  DW      NAME1,NAME2,NAME3,NAME4,NAME5,NAME6,NAME7,NAME8,NAME9
NAME1:  DB      'a lamp',0
NAME2:  DB      'a box of matches',0
NAME3:  DB      'a brass key',0
NAME4:  DB      'a can of oil',0
NAME5:  DB      'a plank',0
NAME6:  DB      'a logbook',0
NAME7:  DB      'a herring',0
NAME8:  DB      'a wick',0
NAME9:  DB      'a bottle of rum',0

; What EXAMINE tells of each thing.
SIGHTS: DW      SIGHT1,SIGHT2,SIGHT3,SIGHT4,SIGHT5,SIGHT6,SIGHT7,SIGHT8
        DW      SIGHT9,SIGHT10,SIGHT11,SIGHT12,SIGHT13,SIGHT14,SIGHT15
SIGHT1: DB      'A small lamp with a handle, full of oil. It needs a match.',LF,0
SIGHT2: DB      'Seven matches, all dry. Somebody has counted them on the box.',LF,0
SIGHT3: DB      'Its tag says: TOWER. RETURN TO HOOK.',LF,0
SIGHT4: DB      'Two gallons of the good oil. FOR THE LIGHT ONLY, it says.',LF,0
SIGHT5: DB      'As long as a man, and good for at least one crossing.',LF,0
SIGHT6: DB      'The last page: "Oil has to stay in the cellar, he says. Steps in the',LF
        DB      'tower gone, must lay a plank. The gull has stolen the wick again for',LF
        DB      'her nest. Going down to see to the barrels. Have the key with me."',LF,0
SIGHT7: DB      'It looks back. It has been dead for a day and does not mind.',LF,0
SIGHT8: DB      'As broad as your hand. It belongs in the great lamp.',LF,0
SIGHT9: DB      'The label says: FOR MEDICINAL USE. That means you, Walter.',LF,0
SIGHT10:
        DB      'A lamp of brass and glass, made to be seen for twenty miles.',LF,0
SIGHT11:
        DB      'Oak, iron, and a lock as large as your face.',LF,0
SIGHT12:
        DB      'She looks back, first with one eye, then with the other.',LF,0
SIGHT13:
        DB      'He is well. He will not be tomorrow.',LF,0
SIGHT14:
        DB      'Tea, from the time when it was hot.',LF,0
SIGHT15:
        DB      'Six feet across and forty down.',LF,0

VERBS:  WORDS   'N   ','NORT',0
        WORDS   'S   ','SOUT',1
        WORDS   'E   ','EAST',2
        WORDS   'W   ','WEST',3
        WORDS   'U   ','UP  ',UP
        WORDS   'D   ','DOWN',5
        WORDS   'GO  ','WALK',WALK
        WORDS   'CLIM','JUMP',UP
        WORDS   'L   ','LOOK',LOOK
        WORDS   'I   ','INVE',LIST
        WORDS   'TAKE','GET ',TAKE
        WORDS   'DROP','PUT ',DROP
        WORDS   'GIVE','FEED',DROP
        WORDS   'LAY ','THRO',DROP
        WORDS   'POUR','FILL',POUR
        WORDS   'LIGH','BURN',LIGHT
        WORDS   'OPEN','UNLO',UNLOCK
        WORDS   'X   ','EXAM',EXAMINE
        WORDS   'READ','SEAR',EXAMINE
        WORDS   'WAKE','SHAK',WAKE
        WORDS   'DRIN','SIP ',DRINK
        WORDS   'Z   ','WAIT',WAIT
        WORDS   '?   ','HELP',HELP
        WORDS   'SAVE','KEEP',SAVE
        WORDS   'LOAD','REST',LOAD
        WORDS   'Q   ','QUIT',QUIT
        DB      0

NOUNS:  WORDS   'N   ','NORT',COMPASS
        WORDS   'S   ','SOUT',COMPASS+1
        WORDS   'E   ','EAST',COMPASS+2
        WORDS   'W   ','WEST',COMPASS+3
        WORDS   'U   ','UP  ',COMPASS+UP
        WORDS   'D   ','DOWN',COMPASS+5
        WORDS   'LAMP','LANT',LAMP
        WORDS   'MATC','BOX ',MATCHES
        WORDS   'KEY ','BRAS',KEY
        WORDS   'OIL ','CAN ',OIL
        WORDS   'PLAN','BOAR',PLANK
        WORDS   'LOGB','BOOK',LOGBOOK
        WORDS   'HERR','FISH',HERRING
        WORDS   'WICK','NEST',WICK
        WORDS   'RUM ','BOTT',BOTTLE
        WORDS   'GREA','BEAC',BEACON
        WORDS   'DOOR','LOCK',DOOR
        WORDS   'GULL','BIRD',GULL
        WORDS   'KEEP','WALT',KEEPER
        WORDS   'TEA ','CUP ',TEA
        WORDS   'GAP ','STEP',GAP
        DB      0
