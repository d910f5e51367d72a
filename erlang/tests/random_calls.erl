%% Random calls of functions of texts and numbers, several in a piece of source. Each gives on the real machine what the
%% explorer finds. Calls at which the library stops are left out.
-module(random_calls).

-export([all/4]).

-define(PIECES, 12).
-define(CALLS, 20).

all(Program, Folder, Work, Library) ->
    rand:seed(exsss, {7, 8, 9}),
    Modules = [library_tests:load(File) || File <- filelib:wildcard(filename:join(Folder, "library/*.erl"))],
    Functions = [{M, F, Kinds} || M <- Modules, {{F, A}, Kinds} <- text_arguments:kinds(), lists:member({F, A}, M:module_info(exports))],
    Leader = group_leader(),
    group_leader(quiet_device:start(), self()),
    Blocks = [{lists:concat(["calls ", N]), [], piece(Functions)} || N <- lists:seq(1, ?PIECES)],
    group_leader(Leader, self()),
    [snippet_tests:one("random", Block, {Program, Work, Library}) || Block <- Blocks].

piece(Functions) ->
    Calls = lists:append([call(N, lists:nth(rand:uniform(length(Functions)), Functions)) || N <- lists:seq(1, ?CALLS)]),
    [lists:flatten(["run() -> [", lists:join(",\n    ", Calls), "]."]), "id(X) -> X."].

%% Its arguments are hidden from the compiler. What has a pid, a function or a large integer in it is left out too.
call(Number, {Module, F, Kinds}) ->
    [RealModule, Name] = [list_to_atom(Part) || Part <- string:split(atom_to_list(F), ":")],
    Arguments = [text_arguments:argument(Kind) || {text, Kind} <- Kinds],
    Value = catch apply(RealModule, Name, Arguments),
    case lists:all(fun is_read/1, [Value | Arguments]) andalso library_tests:compared(Module, F, Arguments) of
        same ->
            Shown = lists:join(", ", [io_lib:format("id(~tw)", [A]) || A <- Arguments]),
            [io_lib:format("try ~tp:~tp(~ts) catch error:E~w -> E~w end", [RealModule, Name, Shown, Number, Number])];
        _ -> []
    end.

is_read(T) when is_integer(T) -> not readable:is_past_limit(T);
is_read([H | T]) -> is_read(H) andalso is_read(T);
is_read(T) when is_tuple(T) -> is_read(tuple_to_list(T));
is_read(T) -> not is_pid(T) andalso not is_function(T).
