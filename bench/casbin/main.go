// Decisions by Casbin. Standard input has a line for each thing:
//
//	p ROLE PERMISSION        a grant
//	g SESSION ROLE           an active role
//	g SENIOR JUNIOR          an attachment
//	? SESSION PERMISSION V   a decision, and the verdict expected
//	round                    ask all decisions and print the nanoseconds of one
//
// Before the first round every verdict is checked.
package main

import (
	"bufio"
	"fmt"
	"log"
	"os"
	"strings"
	"time"

	"github.com/casbin/casbin/v2"
	"github.com/casbin/casbin/v2/model"
	defaultrolemanager "github.com/casbin/casbin/v2/rbac/default-role-manager"
)

// The permission is compared first: it is the cheaper test.
const rbac = `
[request_definition]
r = sub, obj
[policy_definition]
p = sub, obj
[role_definition]
g = _, _
[policy_effect]
e = some(where (p.eft == allow))
[matchers]
m = r.obj == p.obj && g(r.sub, p.sub)
`

// No chain of attachments is longer.
const maxHierarchyLevel = 257

type decision struct {
	session, permission string
	verdict             bool
}

func newEnforcer(grants, links [][]string) (*casbin.Enforcer, error) {
	m, err := model.NewModelFromString(rbac)
	if err != nil {
		return nil, err
	}
	e, err := casbin.NewEnforcer(m)
	if err != nil {
		return nil, err
	}
	e.SetRoleManager(defaultrolemanager.NewRoleManagerImpl(maxHierarchyLevel))
	if _, err := e.AddPolicies(grants); err != nil {
		return nil, err
	}
	if _, err := e.AddGroupingPolicies(links); err != nil {
		return nil, err
	}
	return e, e.BuildRoleLinks()
}

func check(e *casbin.Enforcer, decisions []decision) error {
	for _, d := range decisions {
		ok, err := e.Enforce(d.session, d.permission)
		if err != nil {
			return err
		}
		if ok != d.verdict {
			return fmt.Errorf("%s %s: %v", d.session, d.permission, ok)
		}
	}
	return nil
}

func round(e *casbin.Enforcer, decisions []decision) error {
	begin := time.Now()
	for _, d := range decisions {
		if _, err := e.Enforce(d.session, d.permission); err != nil {
			return err
		}
	}
	_, err := fmt.Println(time.Since(begin).Nanoseconds() / int64(len(decisions)))
	return err
}

func run() error {
	var grants, links [][]string
	var decisions []decision
	var e *casbin.Enforcer
	lines := bufio.NewScanner(os.Stdin)
	for lines.Scan() {
		words := strings.Fields(lines.Text())
		var err error
		switch words[0] {
		case "p":
			grants = append(grants, words[1:])
		case "g":
			links = append(links, words[1:])
		case "?":
			decisions = append(decisions, decision{words[1], words[2], words[3] == "1"})
		case "round":
			if e == nil {
				if e, err = newEnforcer(grants, links); err == nil {
					err = check(e, decisions)
				}
			}
			if err == nil {
				err = round(e, decisions)
			}
		}
		if err != nil {
			return err
		}
	}
	return lines.Err()
}

func main() {
	if err := run(); err != nil {
		log.Fatal(err)
	}
}
