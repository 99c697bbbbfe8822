/* OpenSSL's EVP, with its algorithm fetched and its context made beforehand. */
#include <openssl/evp.h>

#include "sha256_message.h"

static const EVP_MD *sha256;
static EVP_MD_CTX *context;

void prepare(size_t size)
{
	fill(size);
	if (context == NULL) {
		context = EVP_MD_CTX_new();
		sha256 = EVP_MD_fetch(NULL, "SHA256", NULL);
	}
}

void work(void)
{
	EVP_DigestInit_ex(context, sha256, NULL);
	EVP_DigestUpdate(context, message, message_len);
	EVP_DigestFinal_ex(context, hash, NULL);
}
