%% A machine ends in a state that has no clause for an event; its end is told, and who waits in it is told too.
%% words: --after-timeout 5000
%% error: P ends {'result','noproc',{'odd_in','one'},'one'}
%% error: P ends {'result','ok',{'odd_in','two'},'two'}
%% error: P ends {'result',{'odd_in','one'},{'odd_in','one'},'one'}
%% error: P.1 ends {{'odd_in','one'},[]}
%% error: P.1 ends {{'odd_in','two'},[]}
-module(statem_crash).
-behaviour(gen_statem).
-export([main/0, init/1, callback_mode/0, handle_event/4, terminate/3]).

main() ->
    {ok, Pid} = gen_statem:start(?MODULE, self(), []),
    spawn(fun() -> Pid ! odd end),
    Called = try gen_statem:call(Pid, next) catch exit:{Why, {gen_statem, call, [Pid, next, infinity]}} -> kind(Why) end,
    receive {ended, Reason, State} -> exit({result, Called, kind(Reason), State}) end.

kind({Reason, Trace}) when is_list(Trace) -> Reason;
kind(Reason) -> Reason.

callback_mode() -> handle_event_function.

init(Main) -> {ok, one, Main}.

handle_event({call, From}, next, one, Main) -> {next_state, two, Main, [{reply, From, ok}]};
handle_event(info, odd, State, _) -> error({odd_in, State}).

terminate(Reason, State, Main) -> Main ! {ended, Reason, State}.
