%% Two stop one server, with two reasons: one of them may find it gone, or see it end for the other's reason.
%% words: --after-timeout 5000
%% error: P ends {'result','ok',{'exit','noproc'},'normal'}
%% error: P ends {'result','ok',{'exit',{'normal',{'sys','terminate',[P.1,'shutdown','infinity']}}},'normal'}
%% error: P ends {'result',{'exit','noproc'},'ok','shutdown'}
%% error: P ends {'result',{'exit',{'shutdown',{'sys','terminate',[P.1,'normal','infinity']}}},'ok','shutdown'}
%% error: P.1 ends 'shutdown'
-module(server_stopped_by_two).
-behaviour(gen_server).
-export([main/0, init/1, handle_call/3, handle_cast/2, terminate/2]).

main() ->
    Main = self(),
    {ok, Pid} = gen_server:start(?MODULE, Main, []),
    spawn(fun() -> Main ! {other, stopped(fun() -> gen_server:stop(Pid, shutdown, infinity) end)} end),
    Mine = stopped(fun() -> gen_server:stop(Pid) end),
    Others = receive {other, Answer} -> Answer end,
    exit({result, Mine, Others, receive {terminate, Reason} -> Reason end}).

stopped(Stop) -> try Stop() catch exit:Why -> {exit, Why} end.

init(Main) -> {ok, Main}.

handle_call(_, _, Main) -> {reply, ok, Main}.

handle_cast(_, Main) -> {noreply, Main}.

terminate(Reason, Main) -> Main ! {terminate, Reason}.
