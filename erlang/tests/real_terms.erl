%% Terms of the real machine in the explorer's spelling. What has no name that both know is a
%% word: PID, REF, FUN, MAP; a binary is its bytes. A stack trace is [].
-module(real_terms).

-export([text/1, without_names/1]).

text(T) -> lists:flatten(spelled(without_traces(T))).

spelled(T) when is_integer(T) -> integer_to_list(T);
spelled(T) when is_atom(T) -> [$', [character(C) || C <- atom_to_list(T)], $'];
spelled([]) -> "[]";
spelled([H | T]) -> ["[", spelled(H), tail(T), "]"];
spelled(T) when is_tuple(T) -> ["{", lists:join(",", [spelled(X) || X <- tuple_to_list(T)]), "}"];
spelled(T) when is_pid(T) -> "PID";
spelled(T) when is_reference(T) -> "REF";
spelled(T) when is_function(T) -> "FUN";
spelled(T) when is_map(T) -> "MAP";
spelled(T) when is_binary(T) -> ["<<", lists:join(",", [integer_to_list(B) || B <- binary_to_list(T)]), ">>"];
spelled(T) -> io_lib:format("~p", [T]).

tail([]) -> [];
tail([H | T]) -> [",", spelled(H), tail(T)];
tail(T) -> ["|", spelled(T)].

character($') -> "\\'";
character($\\) -> "\\\\";
character(8) -> "\\b";
character(9) -> "\\t";
character(10) -> "\\n";
character(11) -> "\\v";
character(12) -> "\\f";
character(13) -> "\\r";
character(27) -> "\\e";
character(127) -> "\\d";
character(C) when C < 32 -> io_lib:format("\\~3.8.0b", [C]);
character(C) -> C.

without_traces(T) when is_tuple(T) -> list_to_tuple([without_traces(X) || X <- tuple_to_list(T)]);
without_traces([H | T] = L) ->
    case is_trace(L) of
        true -> [];
        false -> [without_traces(H) | without_traces(T)]
    end;
without_traces(T) -> T.

is_trace([{M, F, A, Info} | _]) -> is_atom(M) andalso is_atom(F) andalso (is_integer(A) orelse is_list(A)) andalso is_list(Info);
is_trace(_) -> false.

%% A text of the explorer with words in the place of the names of processes and references, and with binaries as they are in
%% Erlang.
without_names(Text) ->
    Refs = re:replace(Text, "#P(\\.[0-9]+)*", "REF", [global, unicode, {return, list}]),
    Pids = re:replace(Refs, "(?<![A-Za-z0-9_'.])P(\\.[0-9]+)*(?![A-Za-z0-9_'])", "PID", [global, unicode, {return, list}]),
    re:replace(Pids, "{'binary',\\[([0-9,]*)\\](,'-')+}", "<<\\1>>", [global, unicode, {return, list}]).
