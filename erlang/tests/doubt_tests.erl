%% Pieces of source in which a verdict may be wrong. Each line that begins with %? is one that --doubts writes, with PLACE
%% for the file, and nothing else is written.
-module(doubt_tests).

-export([all/3]).

all(Here, Folder, Library) ->
    [{"doubts: " ++ Title, one(Words, Lines, Folder, Library)} || {Title, Words, Lines} <- blocks:read(filename:join(Here, "doubts.txt"))].

one(Words, Lines, Folder, Library) ->
    File = filename:join(Folder, "doubted.erl"),
    Doubts = filename:join(Folder, "doubts"),
    Source = [L || L <- Lines, not lists:prefix("%?", L)],
    ok = file:write_file(File, unicode:characters_to_binary(blocks:module("doubted", Source))),
    Wanted = lists:append([string:replace(Text, "PLACE", "doubted.erl") ++ "\n" || "%? " ++ Text <- Lines]),
    case converter:run([File, "--doubts", Doubts | Words], Library) of
        {0, _, _} -> compared(lists:flatten(Wanted), written(Doubts));
        {_, _, Refused} -> {failed, lists:flatten(Refused)}
    end.

written(File) ->
    {ok, Text} = file:read_file(File),
    unicode:characters_to_list(Text).

compared(Same, Same) -> passed;
compared(Wanted, Found) -> {failed, {wanted, Wanted, found, Found}}.
