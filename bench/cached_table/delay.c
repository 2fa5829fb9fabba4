/*
 * A network within one machine: takes TCP connections at ports of 127.0.0.1 in a network namespace, connects each to
 * the same port outside of it, and passes each byte on after a while.
 *
 *     delay NAMESPACE MICROSECONDS PORT..
 *
 * The namespace is one of `ip netns`. It prints a line when it takes connections, and runs until it is killed.
 */
#define _GNU_SOURCE
#include <arpa/inet.h>
#include <errno.h>
#include <fcntl.h>
#include <netinet/tcp.h>
#include <sched.h>
#include <stdbool.h>
#include <stdint.h>
#include <stdio.h>
#include <stdlib.h>
#include <string.h>
#include <sys/epoll.h>
#include <sys/prctl.h>
#include <sys/socket.h>
#include <time.h>
#include <unistd.h>

#define SECOND INT64_C(1000000000)
#define MAX_RECEIVED 65536
#define MAX_EVENTS 64

/* After this long, bytes are sent again for which the socket had no room. */
#define NO_ROOM 50000

/* Bytes that wait for their time. */
typedef struct Chunk
{
	struct Chunk *next;
	int64_t		due;
	size_t		size;
	size_t		sent;
	char		bytes[];
} Chunk;

/* One of the two sockets of a connection, or a listener, which has no peer. */
typedef struct End
{
	struct End *next;
	struct End *peer;
	int			socket;
	uint16_t	port;			/* of a listener */
	bool		has_ended;		/* nothing more comes from it */
	bool		is_shut;		/* nothing more is sent to it */
	Chunk	   *first;			/* what it is to send */
	Chunk	  **last;
} End;

static End *ends;
static int	poller;
static int64_t delay;

static void
fail(const char *what)
{
	perror(what);
	exit(1);
}

static int64_t
now(void)
{
	struct timespec time;

	clock_gettime(CLOCK_MONOTONIC, &time);
	return time.tv_sec * SECOND + time.tv_nsec;
}

static struct sockaddr_in
loopback(uint16_t port)
{
	struct sockaddr_in address = {.sin_family = AF_INET, .sin_port = htons(port)};

	address.sin_addr.s_addr = htonl(INADDR_LOOPBACK);
	return address;
}

static void
send_at_once(int socket)
{
	int			on = 1;

	setsockopt(socket, IPPROTO_TCP, TCP_NODELAY, &on, sizeof on);
}

static End *
add_end(int socket)
{
	End		   *end = calloc(1, sizeof *end);
	struct epoll_event event = {.events = EPOLLIN, .data.ptr = end};

	if (end == NULL)
		fail("calloc");
	end->socket = socket;
	end->last = &end->first;
	end->next = ends;
	ends = end;
	if (epoll_ctl(poller, EPOLL_CTL_ADD, socket, &event) != 0)
		fail("epoll_ctl");
	return end;
}

static void
listen_at(uint16_t port)
{
	struct sockaddr_in address = loopback(port);
	int			listener = socket(AF_INET, SOCK_STREAM, 0);
	int			on = 1;

	setsockopt(listener, SOL_SOCKET, SO_REUSEADDR, &on, sizeof on);
	if (bind(listener, (struct sockaddr *) &address, sizeof address) != 0 || listen(listener, 64) != 0)
		fail("listen");
	add_end(listener)->port = port;
}

/* Takes a connection, and makes its other half. */
static void
take_connection(const End *listener)
{
	struct sockaddr_in address = loopback(listener->port);
	int			taken = accept(listener->socket, NULL, NULL);
	int			made = socket(AF_INET, SOCK_STREAM, 0);
	End		   *one;
	End		   *other;

	if (taken < 0 || connect(made, (struct sockaddr *) &address, sizeof address) != 0)
	{
		close(taken);
		close(made);
		return;
	}
	send_at_once(taken);
	send_at_once(made);
	one = add_end(taken);
	other = add_end(made);
	one->peer = other;
	other->peer = one;
}

/* What an end has sent is due at its peer later. */
static void
receive(End *end)
{
	Chunk	   *chunk = malloc(sizeof *chunk + MAX_RECEIVED);
	ssize_t		size;

	if (chunk == NULL)
		fail("malloc");
	size = recv(end->socket, chunk->bytes, MAX_RECEIVED, MSG_DONTWAIT);
	if (size < 0 && errno == EAGAIN)
		free(chunk);
	else if (size <= 0)
	{
		free(chunk);
		end->has_ended = true;
		epoll_ctl(poller, EPOLL_CTL_DEL, end->socket, NULL);
	}
	else
	{
		*chunk = (Chunk) {.due = now() + delay, .size = (size_t) size};
		*end->peer->last = chunk;
		end->peer->last = &chunk->next;
	}
}

/* Sends what is due. Returns when more is, or 0. */
static int64_t
send_due(End *end)
{
	while (end->first != NULL && end->first->due <= now())
	{
		Chunk	   *chunk = end->first;
		size_t		left = chunk->size - chunk->sent;
		ssize_t		sent = send(end->socket, chunk->bytes + chunk->sent, left, MSG_NOSIGNAL | MSG_DONTWAIT);

		if (sent < 0 && errno == EAGAIN)
		{
			chunk->due = now() + NO_ROOM;
			break;
		}
		/* Who has gone gets nothing. */
		chunk->sent += sent < 0 ? left : (size_t) sent;
		if (chunk->sent < chunk->size)
			continue;
		end->first = chunk->next;
		if (end->first == NULL)
			end->last = &end->first;
		free(chunk);
	}
	if (end->first != NULL)
		return end->first->due;
	if (end->peer != NULL && end->peer->has_ended && !end->is_shut)
	{
		shutdown(end->socket, SHUT_WR);
		end->is_shut = true;
	}
	return 0;
}

/* Sends all that is due. Returns when more is, or 0. */
static int64_t
send_all_due(void)
{
	int64_t		next = 0;

	for (End *end = ends; end != NULL; end = end->next)
	{
		int64_t		due = send_due(end);

		if (due != 0 && (next == 0 || due < next))
			next = due;
	}
	return next;
}

/* Waits for what comes, until this moment if it is not 0. */
static void
wait_until(int64_t due)
{
	struct epoll_event events[MAX_EVENTS];
	int64_t		left = due == 0 ? 0 : due - now();
	struct timespec time = {.tv_sec = left / SECOND, .tv_nsec = left % SECOND};
	int			count;

	if (left < 0)
		time = (struct timespec) {0};
	count = epoll_pwait2(poller, events, MAX_EVENTS, due == 0 ? NULL : &time, NULL);
	for (int i = 0; i < count; i++)
	{
		End		   *end = events[i].data.ptr;

		if (end->peer == NULL)
			take_connection(end);
		else
			receive(end);
	}
}

static void
enter(int namespace)
{
	if (namespace < 0 || setns(namespace, CLONE_NEWNET) != 0)
		fail("setns");
}

int
main(int count, char **words)
{
	char		path[256];
	int			own = open("/proc/self/ns/net", O_RDONLY);

	if (count < 4)
	{
		fputs("usage: delay NAMESPACE MICROSECONDS PORT..\n", stderr);
		return 2;
	}
	delay = atol(words[2]) * 1000;
	/* Otherwise it sleeps for up to 50 microseconds longer than it asks for. */
	prctl(PR_SET_TIMERSLACK, 1UL);
	poller = epoll_create1(0);
	snprintf(path, sizeof path, "/run/netns/%s", words[1]);
	enter(open(path, O_RDONLY));
	for (int i = 3; i < count; i++)
		listen_at((uint16_t) atoi(words[i]));
	enter(own);
	puts("ready");
	fflush(stdout);
	for (;;)
		wait_until(send_all_due());
}
