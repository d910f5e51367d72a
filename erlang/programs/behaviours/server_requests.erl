%% Two requests are sent before an answer is read; the server ends at the second one, or before it.
%% words: --after-timeout 5000
%% error: P ends {'result',{'ended','noproc'},{'ended','noproc'}}
%% error: P ends {'result',{'ended','normal'},{'ended','noproc'}}
%% error: P ends {'result',{'ended','normal'},{'ended','normal'}}
%% error: P ends {'result',{'reply',2},{'ended','noproc'}}
%% error: P ends {'result',{'reply',2},{'ended','normal'}}
%% error: P ends {'result',{'reply',2},{'reply',2}}
%% error: P.1 ends {'shutdown','asked'}
-module(server_requests).
-behaviour(gen_server).
-export([main/0, init/1, handle_call/3, handle_cast/2]).

main() ->
    {ok, Pid} = gen_server:start(?MODULE, 1, []),
    spawn(fun() -> gen_server:cast(Pid, leave) end),
    First = gen_server:send_request(Pid, add),
    Second = gen_server:send_request(Pid, leave),
    Answer = gen_server:receive_response(Second, infinity),
    exit({result, named(gen_server:wait_response(First, infinity)), named(Answer)}).

named({error, {Reason, Pid}}) when is_pid(Pid) -> {ended, Reason};
named(Answer) -> Answer.

init(N) -> {ok, N}.

handle_call(add, _, N) -> {reply, N + 1, N + 1};
handle_call(leave, _, N) -> {stop, {shutdown, asked}, N, N}.

handle_cast(leave, N) -> {stop, normal, N}.
