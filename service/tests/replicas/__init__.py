"""Hosts with a registry behind its log, for the tests that tools/trials/replicas runs.

On one host they need no right; three hosts are network namespaces with etcd, which asks for root. A
file of tests shares a cluster and its clients (conftest.py), in the order in which the tests stand.
"""
