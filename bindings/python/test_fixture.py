"""A fixture of pytest: each test that uses it fails if a rule was broken, also if it asserts nothing itself."""
import lsp_judge
import pytest


@pytest.fixture
def session():
    it = lsp_judge.Session()
    yield it
    it.check()


def test_a_good_session(session):
    session.sent({"jsonrpc": "2.0", "id": 1, "method": "initialize", "params": {"capabilities": {}}})
    session.got({"jsonrpc": "2.0", "id": 1, "result": {"capabilities": {}}})


@pytest.mark.xfail(raises=AssertionError, strict=True)
def test_a_reply_that_nobody_asked_for():
    it = lsp_judge.Session()
    it.got({"jsonrpc": "2.0", "id": 1, "result": None})
    it.check()
