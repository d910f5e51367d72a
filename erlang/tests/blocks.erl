%% Files of short pieces of source: `%% title`, or `%% title | words`, and the piece.
-module(blocks).

-export([read/1, module/2]).

%% [{Title, Words, Lines}]
read(File) ->
    {ok, Bytes} = file:read_file(File),
    block(string:split(unicode:characters_to_list(Bytes), "\n", all)).

block(["%% " ++ Head | T]) ->
    {Lines, Rest} = lists:splitwith(fun("%% " ++ _) -> false; (_) -> true end, T),
    {Title, Words} = case string:split(Head, " | ") of
        [One] -> {One, []};
        [One, Two] -> {One, string:lexemes(Two, " ")}
    end,
    [{Title, Words, [L || L <- Lines, L =/= ""]} | block(Rest)];
block([_ | T]) -> block(T);
block([]) -> [].

%% A module of that name around these lines; they begin at line 2.
module(Name, Lines) ->
    ["-module(", Name, "). -compile([export_all, nowarn_export_all]).\n", lists:join("\n", Lines), "\n"].
