/* A terminal over mediastreamer2's text stream (RFC 4103, two generations of redundancy).
 *
 *   cc -o mediastreamer mediastreamer.c $(pkg-config --cflags --libs mediastreamer ortp)
 *   mediastreamer PORT ADDRESS:PORT SSRC GAP MILLIS TEXT
 *
 * After a second it types TEXT, a character each GAP milliseconds. When MILLIS milliseconds are over it prints what came, and
 * ends. The payload types are 98 for t140 and 100 for red. Where SSRC is `-` its packets have the one that it drew. */
#include <mediastreamer2/mediastream.h>
#include <mediastreamer2/msrtt4103.h>
#include <locale.h>
#include <stdio.h>
#include <stdlib.h>
#include <string.h>
#include <time.h>
#include <unistd.h>
#include <wchar.h>

static wchar_t heard[65536];
static size_t heard_count;

static void on_character(void *data, MSFilter *filter, unsigned int event, void *argument) {
	(void)data;
	(void)filter;
	if (event == MS_RTT_4103_RECEIVED_CHAR && heard_count < sizeof heard / sizeof heard[0]) {
		heard[heard_count++] = (wchar_t)((RealtimeTextReceivedCharacter *)argument)->character;
	}
}

static long millis(void) {
	struct timespec now;
	clock_gettime(CLOCK_MONOTONIC, &now);
	return now.tv_sec * 1000L + now.tv_nsec / 1000000;
}

static PayloadType *payload_of(const PayloadType *kind) {
	PayloadType *type = payload_type_clone(kind);
	payload_type_set_flag(type, PAYLOAD_TYPE_FLAG_CAN_RECV);
	payload_type_set_flag(type, PAYLOAD_TYPE_FLAG_CAN_SEND);
	return type;
}

static RtpProfile *profile_of_text(void) {
	RtpProfile *profile = rtp_profile_new("text");
	rtp_profile_set_payload(profile, 98, payload_of(&payload_type_t140));
	rtp_profile_set_payload(profile, 100, payload_of(&payload_type_t140_red));
	return profile;
}

int main(int count, char **words) {
	if (count != 7 || !strchr(words[2], ':')) {
		fprintf(stderr, "usage: mediastreamer PORT ADDRESS:PORT SSRC GAP MILLIS TEXT\n");
		return 2;
	}
	setlocale(LC_ALL, "C.UTF-8");
	static wchar_t text[65536];
	size_t length = mbstowcs(text, words[6], sizeof text / sizeof text[0] - 1);
	if (length == (size_t)-1) {
		fprintf(stderr, "TEXT is no UTF-8\n");
		return 2;
	}
	int port = atoi(words[1]);
	char address[64];
	snprintf(address, sizeof address, "%.*s", (int)(strchr(words[2], ':') - words[2]), words[2]);
	int to = atoi(strchr(words[2], ':') + 1);

	bctbx_set_log_level(NULL, BCTBX_LOG_FATAL);
	MSFactory *factory = ms_factory_new_with_voip();
	TextStream *stream = text_stream_new2(factory, "127.0.0.1", port, port + 1000);
	if (strcmp(words[3], "-")) {
		rtp_session_set_ssrc(stream->ms.sessions.rtp_session, (uint32_t)strtoul(words[3], NULL, 10));
	}
	rtp_session_enable_rtcp(stream->ms.sessions.rtp_session, FALSE);
	if (!text_stream_start(stream, profile_of_text(), address, to, address, to + 1000, 100)) {
		fprintf(stderr, "the text stream does not start\n");
		return 1;
	}
	ms_filter_add_notify_callback(stream->rttsink, on_character, NULL, TRUE);

	long start = millis(), gap = atol(words[4]), end = atol(words[5]);
	size_t typed = 0;
	while (millis() - start < end) {
		while (typed < length && millis() - start >= 1000 + (long)typed * gap) {
			text_stream_putchar32(stream, (uint32_t)text[typed++]);
		}
		text_stream_iterate(stream);
		usleep(5000);
	}
	text_stream_stop(stream);
	for (size_t place = 0; place < heard_count; place++) {
		if (heard[place] != 0xFEFF) {
			printf("%lc", (wint_t)heard[place]);
		}
	}
	printf("\n");
	return 0;
}
