%% A server that is known by its name is watched by it: it ends while it is watched, or was gone before.
%% want: main ends {normal,{server,nonode@nohost}} and {noproc,{server,nonode@nohost}}
%% depth: 16
%% error: P ends {'noproc',{'server','nonode@nohost'}}
%% error: P ends {'normal',{'server','nonode@nohost'}}
-module(named_and_gone).
-export([main/0]).

main() ->
    Me = self(),
    spawn(fun() ->
                  register(server, self()),
                  Me ! ready,
                  receive stop -> ok end
          end),
    receive ready -> ok end,
    spawn(fun() -> server ! stop end),
    R = monitor(process, server),
    receive {'DOWN', R, process, Who, Why} -> exit({Why, Who}) end.
