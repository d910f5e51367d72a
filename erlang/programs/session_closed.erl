%% A session keeps its user and a count in its dictionary, and erases all of it when it is closed. A request that comes after
%% that finds no count.
%% want: the session ends {badarith,[]} in some schedule
%% depth: 11
%% error: P.1 ends {'badarith',[]}
-module(session_closed).
-export([main/0]).

main() ->
    Session = spawn(fun() -> open(anna) end),
    spawn(fun() -> Session ! close end),
    Session ! request,
    undefined = get(user).

open(User) ->
    put(user, User),
    put(requests, 0),
    [requests, user] = lists:sort(get_keys()),
    serve(2).

serve(0) -> ok;
serve(N) ->
    receive
        request -> put(requests, get(requests) + 1);
        close ->
            [{requests, _}, {user, anna}] = lists:sort(erase()),
            [] = get()
    end,
    serve(N - 1).
