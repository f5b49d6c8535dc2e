package lspjudge

import (
	"strings"
	"testing"
)

func TestASecondReplyIsShown(t *testing.T) {
	log := `-> {"jsonrpc":"2.0","id":1,"method":"initialize","params":{}}
<- {"jsonrpc":"2.0","id":1,"result":{"capabilities":{}}}
<- {"jsonrpc":"2.0","id":1,"result":{"capabilities":{}}}
`
	status, report, err := Judge([]byte(log))
	if err != nil || status != Broken || !strings.Contains(string(report), `"rule":"NobodyAsked"`) {
		t.Fatal(status, string(report), err)
	}
}

func TestNothingIsNotClean(t *testing.T) {
	if status, _, err := Judge(nil); status != Nothing || err != nil {
		t.Fatal(status, err)
	}
}
