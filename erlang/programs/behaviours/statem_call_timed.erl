%% A call with a time to a machine that answers after a timeout of its own, which the message of another may make longer.
%% words: --after-timeout 5000
%% error: P ends {'result','done','true'}
%% error: P ends {'result','done_late','true'}
%% error: P ends {'result','too_late','true'}
%% error: P.2 ends {'result','done','true'}
%% error: P.2 ends {'result','done_late','true'}
%% error: P.2 ends {'result','too_late','true'}
-module(statem_call_timed).
-behaviour(gen_statem).
-export([main/0, init/1, callback_mode/0, idle/3, busy/3]).

main() ->
    {ok, Pid} = gen_statem:start_link({local, slow}, ?MODULE, [], []),
    spawn(fun() -> Pid ! wait end),
    Answer = try gen_statem:call(slow, work, {dirty_timeout, 3}) catch exit:{timeout, _} -> too_late end,
    exit({result, Answer, is_process_alive(Pid)}).

callback_mode() -> state_functions.

init(_) -> {ok, idle, nobody, hibernate}.

idle({call, From}, work, nobody) -> {next_state, busy, From, [{state_timeout, 1, done}]};
idle(info, wait, _) -> {keep_state_and_data, [hibernate]}.

busy(info, wait, _) -> {keep_state_and_data, {state_timeout, 2, done_late}};
busy(state_timeout, Done, From) -> {next_state, idle, nobody, [{reply, From, Done}]}.
