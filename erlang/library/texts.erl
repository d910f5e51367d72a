%% Atoms and their texts. The converter adds the atoms of a program to the two tables (src/atom_texts.erl); those that are
%% here are the ones that the explorer makes by itself.
-module(texts).
-compile([export_all, nowarn_export_all]).

'erlang:atom_to_list'(A) when is_atom(A) -> 'text of atom'(A);
'erlang:atom_to_list'(_) -> error(badarg).

'erlang:list_to_atom'(Text) ->
    case 'text has length'(Text, 0) of
        true -> 'atom of text'(Text);
        false -> error(badarg)
    end.

%% An atom that is not in the table may exist on the real machine.
'erlang:list_to_existing_atom'(Text) -> 'erlang:list_to_atom'(Text).

'text has length'([C | T], N) when is_integer(C), C >= 0, C < 16#D800; is_integer(C), C > 16#DFFF, C =< 16#10FFFF ->
    'text has length'(T, N + 1);
'text has length'([], N) when N > 255 -> error(system_limit);
'text has length'(Rest, _) -> Rest =:= [].

'text of atom'(badarg) -> "badarg";
'text of atom'(badarith) -> "badarith";
'text of atom'(badarity) -> "badarity";
'text of atom'(badfun) -> "badfun";
'text of atom'(badmatch) -> "badmatch";
'text of atom'(badmap) -> "badmap";
'text of atom'(badkey) -> "badkey";
'text of atom'(badrecord) -> "badrecord";
'text of atom'(case_clause) -> "case_clause";
'text of atom'(function_clause) -> "function_clause";
'text of atom'(if_clause) -> "if_clause";
'text of atom'(try_clause) -> "try_clause";
'text of atom'(undef) -> "undef";
'text of atom'(noproc) -> "noproc";
'text of atom'(noconnection) -> "noconnection";
'text of atom'(normal) -> "normal";
'text of atom'(kill) -> "kill";
'text of atom'(killed) -> "killed";
'text of atom'('EXIT') -> "EXIT";
'text of atom'('DOWN') -> "DOWN";
'text of atom'('ETS-TRANSFER') -> "ETS-TRANSFER";
'text of atom'('$end_of_table') -> "$end_of_table";
'text of atom'(process) -> "process";
'text of atom'(system_limit) -> "system_limit";
'text of atom'(timeout_value) -> "timeout_value";
'text of atom'(nocatch) -> "nocatch";
'text of atom'(error) -> "error";
'text of atom'(exit) -> "exit";
'text of atom'(throw) -> "throw";
'text of atom'(ok) -> "ok";
'text of atom'(true) -> "true";
'text of atom'(false) -> "false";
'text of atom'(undefined) -> "undefined";
'text of atom'(infinity) -> "infinity";
'text of atom'(set) -> "set";
'text of atom'(ordered_set) -> "ordered_set";
'text of atom'(bag) -> "bag";
'text of atom'(duplicate_bag) -> "duplicate_bag";
'text of atom'(public) -> "public";
'text of atom'(protected) -> "protected";
'text of atom'(private) -> "private";
'text of atom'(none) -> "none";
'text of atom'(A) -> erlang:'the text of an atom that the program does not have'(A).

'atom of text'("true") -> true;
'atom of text'("false") -> false;
'atom of text'("ok") -> ok;
'atom of text'("error") -> error;
'atom of text'("undefined") -> undefined;
'atom of text'(Text) -> erlang:'an atom that the program does not have'(Text).
