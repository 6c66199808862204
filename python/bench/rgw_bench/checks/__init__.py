"""The checks of a gateway: `*.check` as text, and tests in Python; `rgw_bench.check_text` says how a check is written.

    pytest --pyargs rgw_bench.checks --gateway 127.0.0.1:2427 --domain gw1.example.net --line aaln/1
"""
