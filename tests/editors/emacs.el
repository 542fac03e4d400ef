;;; emacs.el --- Drives tools/dap by dap-mode and tools/lsp by lsp-mode -*- lexical-binding: t; -*-

;; tests/servers.py runs it in batch, with the repository in ROOT and the program in JSONCRDT. The last line is
;; `N passed, M failed`.

;;; Code:

(require 'package)
(package-initialize)
(require 'dap-ui)

(defvar root (getenv "ROOT"))
(defvar passed 0)
(defvar failed 0)
(defvar seconds 120)

(defun check (what expected seen)
  (if (equal expected seen)
      (setq passed (1+ passed))
    (setq failed (1+ failed))
    (message "FAILED %s: expected %S, seen %S" what expected seen)))

(defun wait-for (holds)
  "Let processes write until HOLDS, for some seconds."
  (let ((end (+ (float-time) seconds)))
    (while (and (not (funcall holds)) (< (float-time) end))
      (accept-process-output nil 0.02))
    (funcall holds)))

(load (expand-file-name "editors/emacs/jsoncrdt.el" root) nil t)
(setq dap-auto-show-output nil
      dap-auto-configure-features nil
      dap-breakpoints-file (make-temp-file "breakpoints")
      dap-print-io nil
      lsp-session-file (make-temp-name (expand-file-name "lsp-session" temporary-file-directory))
      lsp-debounce-full-sync-notifications nil
      lsp-restart 'ignore)
(remove-hook 'jsoncrdt-mode-hook #'lsp-deferred)

(defvar stops 0)
(add-hook 'dap-stack-frame-changed-hook
          (lambda (session) (when (dap--debug-session-active-frame session) (setq stops (1+ stops)))))

(defun frame-of (session member)
  (let ((frame (dap--debug-session-active-frame session)))
    (and frame (gethash member frame))))

(defun after (move)
  "The name and the line of the frame to which MOVE leads."
  (let ((before stops))
    (funcall move)
    (wait-for (lambda () (> stops before)))
    (list (frame-of (dap--cur-session) "name") (line-number-at-pos))))

(defun go-on ()
  (dap-continue (dap--cur-session) (dap--debug-session-thread-id (dap--cur-session))))

(defun asked (command arguments)
  "The body of the answer to a request."
  (let (answer)
    (dap--send-message (dap--make-request command arguments) (lambda (result) (setq answer result)) (dap--cur-session))
    (wait-for (lambda () answer))
    (gethash "body" answer)))

(defun debug-file (file)
  (after (lambda () (dap-debug (list :type "jsoncrdt" :request "launch" :name "one" :program file)))))

(defun test-dap ()
  (find-file (expand-file-name "examples/to-do.jsoncrdt" root))
  (check "the mode" 'jsoncrdt-mode major-mode)
  (goto-char (point-min))
  (search-forward "schedule {")
  (let ((schedule (line-number-at-pos)))
    (forward-line 12)
    (dap-breakpoint-add)
    (check "the entry" (list "next: p.exec (1 of 20)" (1+ schedule)) (debug-file buffer-file-name))
    (check "a step" (list "next: p.exec (2 of 20)" (+ 2 schedule)) (after (lambda () (dap-next (dap--cur-session)))))
    (check "a step back" (list "next: p.exec (1 of 20)" (1+ schedule)) (after #'jsoncrdt-step-back))
    (check "the breakpoint" (+ 12 schedule) (cadr (after #'go-on)))
    (check "the end" "no event comes next" (car (after #'go-on)))
    (check "back to the breakpoint" (+ 12 schedule) (cadr (after #'jsoncrdt-reverse-continue)))
    (check "a line of the console" "at 11 of 20"
           (gethash "result" (asked "evaluate" (list :expression "where" :context "repl")))))
  (test-values))

(defun test-values ()
  (let* ((frame (frame-of (dap--cur-session) "id"))
         (scopes (gethash "scopes" (asked "scopes" (list :frameId frame))))
         (document (asked "variables" (list :variablesReference (gethash "variablesReference" (elt scopes 0))))))
    (check "the document" "doc" (gethash "name" (elt (gethash "variables" document) 0)))
    (check "a watch" "\"buy milk\""
           (gethash "result" (asked "evaluate" (list :expression "doc.get(\"todo\").idx(1).get(\"title\")"
                                                     :context "watch" :frameId frame)))))
  (test-window)
  (dap-disconnect (dap--cur-session))
  (check "it has ended" t
         (wait-for (lambda () (eq 'terminated (dap--debug-session-state (dap--cur-session)))))))

(defun test-window ()
  "What the window of values has, which dap-mode opens where it isn't in batch."
  (dap-ui-locals--refresh)
  (with-current-buffer dap-ui--locals-buffer
    (check "a window of values" t
           (and (string-match-p "Document\\(.\\|\n\\)*Variables\\(.\\|\n\\)*State" (buffer-string)) t))))

(defun member-of (object member)
  (if (hash-table-p object) (gethash (substring (symbol-name member) 1) object) (plist-get object member)))

(defun test-lsp ()
  (let ((file (concat (make-temp-file "scenarios" t) "/one.jsoncrdt")))
    (with-temp-file file (insert "jsoncrdt 1\nreplica a {\n  doc.get(\"😀\") = 1;\n}\n"))
    (lsp-workspace-folders-add (file-name-directory file))
    (find-file file)
    (lsp)
    (wait-for (lambda () (lsp--get-buffer-diagnostics)))
    (let* ((diagnostic (elt (lsp--get-buffer-diagnostics) 0))
           (start (member-of (member-of diagnostic :range) :start)))
      (check "the number" 7 (member-of diagnostic :code))
      (check "the place, behind two units" '(2 16) (list (member-of start :line) (member-of start :character))))
    (goto-char (point-min))
    (search-forward "= 1")
    (replace-match ":= 1")
    (check "mended" t (wait-for (lambda () (null (lsp--get-buffer-diagnostics)))))
    (lsp-format-buffer)
    (check "formatted" "jsoncrdt 1\nreplica a {\n  doc.get(\"😀\") := 1;\n}\nschedule {\n}\n" (buffer-string))))

(dolist (test '(test-dap test-lsp))
  (condition-case fault (funcall test)
    (error (check (symbol-name test) nil fault))))
(message "%d passed, %d failed" passed failed)
(kill-emacs (if (> failed 0) 1 0))
;;; emacs.el ends here
