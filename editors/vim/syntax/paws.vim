" Sources of text adventures (*.paws). Made by editors/make from the table of condacts.
if exists('b:current_syntax')
  finish
endif
syntax case ignore
syntax sync fromstart

syntax match pawsRemark /^;.*$/
syntax match pawsRemark /;.*$/ contained
syntax match pawsTextRemark /^;.*$/ contained
syntax match pawsItem /^\/\w\+\(\s\+\h\w*\)\=\ze\s*\(;.*\)\?$/ contained nextgroup=pawsRemark skipwhite
syntax match pawsHeader /^\/\(NAMES\|VOC\|STX\|MTX\|OTX\|LTX\|CON\|OBJ\|PRO\s\+\w\+\(\s\+\h\w*\)\=\)\ze\s*\(;.*\)\?$/ contained nextgroup=pawsRemark skipwhite
syntax match pawsValue /'\w\+'/ contained
syntax keyword pawsNamed flag number location object message sysmess table contained
syntax match pawsNumber /\<\d\+\>/ contained
syntax keyword pawsPlace NOTCREATED HERE WORN CARRIED contained
syntax match pawsAny /\(^\|\s\)\@<=[_*]\ze\([ \t;]\|$\)/ contained
syntax match pawsFault /\v<0*%(25[6-9]|2[6-9]\d|[3-9]\d\d|[1-9]\d{3,})>/ contained
syntax match pawsTerm /^\s*\zs\w\+/ contained
syntax match pawsNoValue /\v(^\s*\w+\s+)@<=0*%([01]|25[5-9]|2[6-9]\d|[3-9]\d\d|[1-9]\d{3,})>/ contained
syntax match pawsNoWeight /\v(^\s*\w+\s+\w+\s+)@<=0*%(6[4-9]|[7-9]\d|[1-9]\d{2,})>/ contained
syntax match pawsNoText /[^\x20-\x7e]/ contained
syntax match pawsSubject /_/ contained
syntax keyword pawsClass verb adverb noun adjective preposition conjunction pronoun contained
syntax match pawsKind /\(\d\s\+\)\@<=\(-\|CW\=\|W\)\ze\s/ contained nextgroup=pawsNoun skipwhite
syntax match pawsNoun /[^; \t]\+\(\s\+[^; \t]\+\)\=/ contained contains=pawsAny
syntax match pawsEntry /^[^;\/ \t][^; \t]*\s\+[^; \t]\+/ contained contains=pawsAny nextgroup=pawsSteps
syntax match pawsWord /[^; \t]\+/ contained contains=pawsAny
syntax match pawsFlag /@\w\+\>/ contained contains=pawsFault
syntax match pawsNoFlag /@\ze\([ \t;]\|$\)/ contained
syntax match pawsNoFlag /\(\<\(PROCESS\|DOALL\)\s\+\)\@<=@[^; \t]*/ contained
syntax keyword pawsCondition contained
  \ AT NOTAT ATGT ATLT PRESENT ABSENT NOTWORN NOTCARR
  \ CHANCE ZERO NOTZERO EQ NOTEQ GT LT SAME
  \ NOTSAME ISAT ISNOTAT TIMEOUT QUIT MOVE
syntax keyword pawsFlow contained
  \ DESC END DONE NOTDONE OK SAVE LOAD PARSE
  \ PROCESS DOALL NEWTEXT RESET
syntax keyword pawsTelling contained
  \ INVEN ANYKEY TURNS SCORE MES MESSAGE SYSMESS NEWLINE
  \ PRINT LISTOBJ LISTAT
syntax keyword pawsThing contained
  \ DROPALL AUTOG AUTOD AUTOW AUTOR AUTOP AUTOT GET
  \ DROP WEAR REMOVE PUTIN TAKEOUT CREATE DESTROY SWAP
  \ PLACE PUTO COPYOO COPYOF COPYFO WHATO
syntax keyword pawsMark contained
  \ PICTURE GRAPHIC BEEP CLS PAPER INK BORDER CHARSET
  \ PROTECT SAVEAT BACKAT PRINTAT PAUSE MODE LINE INPUT
syntax keyword pawsState contained
  \ RAMSAVE RAMLOAD GOTO SET CLEAR PLUS MINUS LET
  \ ADD SUB RANDOM COPYFF WEIGH WEIGHT ABILITY PROMPT
  \ TIME EXTERN
syntax keyword pawsAsks contained nextgroup=pawsWord,pawsFlag skipwhite
  \ ADJECT1 ADVERB PREP NOUN2 ADJECT2
syntax match pawsBoth /\<\(WORN\|CARRIED\)\>\ze\s\+\C[a-z0-9]/ contained
syntax match pawsAt /\<\(WORN\|CARRIED\)\>\(\s\+\C[a-z0-9]\)\@!/ contained
syntax keyword pawsAt NOTCREATED HERE contained

syntax region pawsList start=/^\/NAMES\>/ end=/^\ze\/\(NAMES\|VOC\|STX\|MTX\|OTX\|LTX\|CON\|OBJ\|PRO\)\>/ keepend contains=pawsRemark,pawsNumber,pawsNamed,pawsTerm,pawsFault,pawsHeader
syntax region pawsWords start=/^\/VOC\>/ end=/^\ze\/\(NAMES\|VOC\|STX\|MTX\|OTX\|LTX\|CON\|OBJ\|PRO\)\>/ keepend contains=pawsRemark,pawsNumber,pawsClass,pawsTerm,pawsNoValue,pawsValue,pawsHeader
syntax region pawsTexts start=/^\/\(STX\|MTX\|LTX\)\>/ end=/^\ze\/\(NAMES\|VOC\|STX\|MTX\|OTX\|LTX\|CON\|OBJ\|PRO\)\>/ keepend contains=pawsItem,pawsTextRemark,pawsNoText,pawsSubject,pawsHeader
syntax region pawsNames start=/^\/OTX\>/ end=/^\ze\/\(NAMES\|VOC\|STX\|MTX\|OTX\|LTX\|CON\|OBJ\|PRO\)\>/ keepend contains=pawsItem,pawsTextRemark,pawsNoText,pawsHeader
syntax region pawsExits start=/^\/CON\>/ end=/^\ze\/\(NAMES\|VOC\|STX\|MTX\|OTX\|LTX\|CON\|OBJ\|PRO\)\>/ keepend contains=pawsRemark,pawsTerm,pawsItem,pawsNumber,pawsFault,pawsHeader
syntax region pawsThings start=/^\/OBJ\>/ end=/^\ze\/\(NAMES\|VOC\|STX\|MTX\|OTX\|LTX\|CON\|OBJ\|PRO\)\>/ keepend contains=pawsRemark,pawsNumber,pawsKind,pawsPlace,pawsAny,pawsFault,pawsNoWeight,pawsHeader
syntax match pawsSteps /.*$/ contained contains=pawsCondition,pawsFlow,pawsTelling,pawsThing,pawsMark,pawsState,pawsAsks,pawsBoth,pawsAt,pawsNumber,pawsAny,pawsFault,pawsValue,pawsFlag,pawsNoFlag,pawsRemark
syntax match pawsMore /^\s.*$/ contained contains=pawsCondition,pawsFlow,pawsTelling,pawsThing,pawsMark,pawsState,pawsAsks,pawsBoth,pawsAt,pawsNumber,pawsAny,pawsFault,pawsValue,pawsFlag,pawsNoFlag,pawsRemark
syntax region pawsTable start=/^\/PRO\>/ end=/^\ze\/\(NAMES\|VOC\|STX\|MTX\|OTX\|LTX\|CON\|OBJ\|PRO\)\>/ keepend contains=pawsRemark,pawsEntry,pawsMore,pawsHeader

highlight default link pawsRemark Comment
highlight default link pawsTextRemark Comment
highlight default link pawsHeader Title
highlight default link pawsItem Label
highlight default link pawsNumber Number
highlight default link pawsPlace Constant
highlight default link pawsAt Constant
highlight default link pawsAny Delimiter
highlight default link pawsFault Error
highlight default link pawsNoValue Error
highlight default link pawsNoWeight Error
highlight default link pawsNoText Error
highlight default link pawsFlag Special
highlight default link pawsNoFlag Error
highlight default link pawsSubject Special
highlight default link pawsClass Type
highlight default link pawsKind Type
highlight default link pawsTerm Identifier
highlight default link pawsValue Constant
highlight default link pawsNamed Type
highlight default link pawsEntry Identifier
highlight default link pawsWord Identifier
highlight default link pawsNoun Identifier
highlight default link pawsTexts String
highlight default link pawsNames String
highlight default link pawsCondition Conditional
highlight default link pawsAsks Conditional
highlight default link pawsBoth Conditional
highlight default link pawsFlow PreProc
highlight default link pawsTelling Special
highlight default link pawsThing Type
highlight default link pawsMark Underlined
highlight default link pawsState Function

let b:current_syntax = 'paws'
