%% A server is started where none is registered: two starters see that none is.
%% want: a server ends badarg in some schedule
%% depth: 20
%% error: P.1.2 ends {'badarg',[]}
%% error: P.2.2 ends {'badarg',[]}
%% error: deadlock of P.1.2
%% error: deadlock of P.2.2
-module(register_by_fun).
-export([main/0]).

main() ->
    Me = self(),
    Start = fun() ->
        case whereis(log) of
            undefined -> spawn(fun() -> register(log, self()), Me ! up, receive stop -> ok end end);
            Pid -> Me ! up, Pid
        end
    end,
    spawn(Start),
    spawn(Start),
    receive up -> ok end,
    log ! stop.
